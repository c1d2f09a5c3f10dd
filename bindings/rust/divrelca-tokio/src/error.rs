//! What can go wrong.

use std::io;
use std::sync::Arc;

/// Why a connection, a login or a channel came to nothing.
#[derive(Clone, Debug, thiserror::Error)]
#[non_exhaustive]
pub enum Error {
    /// The socket failed.
    #[error("{0}")]
    Io(#[source] Arc<io::Error>),
    /// The peer broke the protocol, or is not the host that is trusted (`BadHost`).
    #[error("the peer is refused: {0}")]
    Refused(String),
    /// The peer ended the connection.
    #[error("the peer ended the connection: {description} (reason {reason})")]
    Disconnected {
        /// The reason, of RFC 4253, 11.1.
        reason: u32,
        /// What the peer says of it, without control characters.
        description: String,
    },
    /// The connection ended without a word.
    #[error("the connection was lost")]
    Lost,
    /// This end closed the connection.
    #[error("the connection is closed")]
    Closed,
    /// There was no sign of life, or nobody was let in in time.
    #[error("the peer was silent for too long")]
    Silent,
    /// There are too many connections.
    #[error("there are too many connections")]
    TooMany,
    /// The peer refuses the channel.
    #[error("the peer opens no channel: {description} (reason {reason})")]
    NoChannel {
        /// The reason, of RFC 4254, 5.1.
        reason: u32,
        /// What the peer says of it, without control characters.
        description: String,
    },
    /// The peer closed the channel.
    #[error("the channel is closed")]
    ChannelClosed,
    /// The peer refuses the request of this name.
    #[error("the peer refuses {0}")]
    RequestFailed(&'static str),
    /// No login was good; what could go on, with commas.
    #[error("not let in; methods that can go on: {0}")]
    NotLetIn(String),
    /// A setting, or an ask, is refused.
    #[error("{0}")]
    Library(#[from] divrelca::Error),
    /// There are no random bytes.
    #[error("no random bytes: {0}")]
    Random(#[from] getrandom::Error),
}

impl From<io::Error> for Error {
    fn from(error: io::Error) -> Self {
        Error::Io(Arc::new(error))
    }
}

impl From<Error> for io::Error {
    fn from(error: Error) -> Self {
        match error {
            Error::Io(inner) => io::Error::new(inner.kind(), inner),
            Error::ChannelClosed => io::Error::new(io::ErrorKind::BrokenPipe, error),
            _ => io::Error::new(io::ErrorKind::ConnectionAborted, error),
        }
    }
}

/// What comes of a call here.
pub type Result<T> = std::result::Result<T, Error>;
