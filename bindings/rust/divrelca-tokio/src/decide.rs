//! What a connection asks its program.

use crate::plain;
use divrelca::Wanted;
use std::fmt;
use std::future::Future;
use std::pin::Pin;
use std::sync::Arc;
use zeroize::Zeroizing;

/// A question to the program. Yes to a key lets nobody in by itself. Of a key of ssh-ed25519 the signature is verified besides; that by any other
/// key is the next question.
#[derive(Clone, PartialEq, Eq)]
#[non_exhaustive]
pub enum Question {
    /// A server: is this user let in by the method `none` (RFC 4252, 5.2)?
    Admission {
        /// The user's name, as the peer gave it.
        user: Vec<u8>,
    },
    /// A server: is this the password of this user (RFC 4252, 8)?
    Password {
        /// The user's name, as the peer gave it.
        user: Vec<u8>,
        /// The password.
        password: Zeroizing<Vec<u8>>,
    },
    /// A server: is this a key of this user (RFC 4252, 7)?
    Key {
        /// The user's name, as the peer gave it.
        user: Vec<u8>,
        /// The name of the algorithm.
        algorithm: String,
        /// The key, as it goes over the wire.
        key: Vec<u8>,
    },
    /// A client: is this the key of the host (RFC 4253, 8)?
    HostKey {
        /// The name of the algorithm.
        algorithm: String,
        /// The key, as it goes over the wire.
        key: Vec<u8>,
    },
    /// A server: is this the signature of the text by this key (RFC 4252, 7)? The key had its yes.
    Signature {
        /// The user's name, as the peer gave it.
        user: Vec<u8>,
        /// The name of the algorithm.
        algorithm: String,
        /// The key, as it goes over the wire.
        key: Vec<u8>,
        /// What is signed.
        text: Vec<u8>,
        /// The signature, as it goes over the wire.
        signature: Vec<u8>,
    },
    /// A client: is this the signature of the text by this key of the host (RFC 4253, 8)? The key had its yes.
    HostSignature {
        /// The name of the algorithm.
        algorithm: String,
        /// The key, as it goes over the wire.
        key: Vec<u8>,
        /// What is signed: the hash of the exchange of keys.
        text: Vec<u8>,
        /// The signature, as it goes over the wire.
        signature: Vec<u8>,
    },
}

impl Question {
    // None where a later version of the library asks something else. The text that a user signs is asked of the end afterwards.
    pub(crate) fn of(wanted: &Wanted<'_>) -> Option<Self> {
        Some(match *wanted {
            Wanted::Admission { user } => Question::Admission { user: user.into() },
            Wanted::Password { user, password } => Question::Password { user: user.into(), password: Zeroizing::new(password.into()) },
            Wanted::Key { user, algorithm, key } => Question::Key { user: user.into(), algorithm: plain(algorithm), key: key.into() },
            Wanted::HostKey { algorithm, key } => Question::HostKey { algorithm: plain(algorithm), key: key.into() },
            Wanted::Signature { user, algorithm, key, signature } => {
                let (user, algorithm, key) = (user.into(), plain(algorithm), key.into());
                Question::Signature { user, algorithm, key, text: Vec::new(), signature: signature.into() }
            }
            Wanted::HostSignature { algorithm, key, hash, signature } => {
                let (algorithm, key) = (plain(algorithm), key.into());
                Question::HostSignature { algorithm, key, text: hash.into(), signature: signature.into() }
            }
            _ => return None,
        })
    }
}

// A password is no text for a log.
impl fmt::Debug for Question {
    fn fmt(&self, f: &mut fmt::Formatter<'_>) -> fmt::Result {
        match self {
            Question::Admission { user } => f.debug_struct("Admission").field("user", &plain(user)).finish(),
            Question::Password { user, .. } => f.debug_struct("Password").field("user", &plain(user)).finish_non_exhaustive(),
            Question::Key { user, algorithm, .. } => {
                f.debug_struct("Key").field("user", &plain(user)).field("algorithm", algorithm).finish_non_exhaustive()
            }
            Question::HostKey { algorithm, .. } => f.debug_struct("HostKey").field("algorithm", algorithm).finish_non_exhaustive(),
            Question::Signature { user, algorithm, .. } => {
                f.debug_struct("Signature").field("user", &plain(user)).field("algorithm", algorithm).finish_non_exhaustive()
            }
            Question::HostSignature { algorithm, .. } => {
                f.debug_struct("HostSignature").field("algorithm", algorithm).finish_non_exhaustive()
            }
        }
    }
}

/// An answer that takes its time.
pub type Answer = Pin<Box<dyn Future<Output = bool> + Send>>;

/// Answers questions. It is called by the connection's task, and the peer waits for the answer: put a limit of time into it where it may take long.
/// One question is asked once in a connection.
pub type Decide = Arc<dyn Fn(Question) -> Answer + Send + Sync>;

/// What a program decides by, from a function that returns a future, as `decide(|question| async move { .. })`.
pub fn decide<F, A>(function: F) -> Decide
where
    F: Fn(Question) -> A + Send + Sync + 'static,
    A: Future<Output = bool> + Send + 'static,
{
    Arc::new(move |question| Box::pin(function(question)))
}
