//! A session of a client.

use crate::{Channel, Error, Exit, Result};
use divrelca::wire::Put;
use std::ops::Deref;

/// A terminal's size, in characters and in points.
#[derive(Clone, Copy, Debug, Default, PartialEq, Eq)]
pub struct Size {
    /// Characters of a line.
    pub columns: u32,
    /// Lines.
    pub rows: u32,
    /// Points of a line; 0 where that is not known.
    pub width: u32,
    /// Points of a column; 0 where that is not known.
    pub height: u32,
}

impl Size {
    fn put(self, put: Put) -> Put {
        put.number(self.columns).number(self.rows).number(self.width).number(self.height)
    }
}

/// A session: a channel with one command, shell or subsystem.
#[derive(Clone, Debug)]
pub struct Session(pub(crate) Channel);

impl Deref for Session {
    type Target = Channel;
    fn deref(&self) -> &Channel {
        &self.0
    }
}

impl Session {
    async fn begin(&self, name: &'static str, rest: &[u8]) -> Result<()> {
        if self.request(name, rest).await? {
            Ok(())
        } else {
            Err(Error::RequestFailed(name))
        }
    }

    /// Runs a command, of at most some 34,000 bytes.
    ///
    /// # Errors
    /// Where the server refuses it, or the channel is over; `divrelca::Error::TooLong` of a longer command, after which the session can be
    /// used for another.
    pub async fn exec(&self, command: impl AsRef<[u8]>) -> Result<()> {
        self.begin("exec", &Put::new().string(command).done()).await
    }

    /// Runs the user's shell.
    ///
    /// # Errors
    /// As of `exec`.
    pub async fn shell(&self) -> Result<()> {
        self.begin("shell", b"").await
    }

    /// Runs a subsystem, as "sftp".
    ///
    /// # Errors
    /// As of `exec`.
    pub async fn subsystem(&self, name: &str) -> Result<()> {
        self.begin("subsystem", &Put::new().string(name).done()).await
    }

    /// Asks for a terminal, before the command.
    ///
    /// # Errors
    /// As of `exec`.
    pub async fn terminal(&self, term: &str, size: Size) -> Result<()> {
        self.begin("pty-req", &size.put(Put::new().string(term)).string([0]).done()).await
    }

    /// Offers the user's agent to the command, before it is asked for. Connections to it come as channels of the type
    /// `auth-agent@openssh.com` (OpenSSH's PROTOCOL): `Connection::next_channel`.
    ///
    /// # Errors
    /// As of `exec`.
    pub async fn agent(&self) -> Result<()> {
        self.lock().0.table.takes_channels = true;
        self.begin("auth-agent-req@openssh.com", b"").await
    }

    /// Tells the terminal's new size.
    ///
    /// # Errors
    /// Where the channel is over.
    pub fn resize(&self, size: Size) -> Result<()> {
        self.tell("window-change", &size.put(Put::new()).done())
    }

    /// Offers a variable of the environment.
    ///
    /// # Errors
    /// Where the channel is over.
    pub fn variable(&self, name: &str, value: impl AsRef<[u8]>) -> Result<()> {
        self.tell("env", &Put::new().string(name).string(value).done())
    }

    /// Sends a signal, as "TERM".
    ///
    /// # Errors
    /// Where the channel is over.
    pub fn signal(&self, name: &str) -> Result<()> {
        self.tell("signal", &Put::new().string(name).done())
    }

    /// Waits for the end of the command; none where the server closed the channel without one. What it wrote has to be read at the same
    /// time, or before.
    ///
    /// # Errors
    /// Where the connection is cut before that.
    pub async fn wait(&self) -> Result<Option<Exit>> {
        self.closed().await
    }
}
