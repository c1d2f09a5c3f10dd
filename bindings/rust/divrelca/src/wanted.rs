//! What an end asks its program.

use crate::borrow;
use divrelca_sys::dv_wanted;
use std::fmt;

/// What an end that decides later asks its program. Yes to a key lets nobody in by itself. Of a key of ssh-ed25519 the library judges the signature
/// besides; that by any other key is the next question.
#[non_exhaustive]
#[derive(Clone, Copy, PartialEq, Eq)]
pub enum Wanted<'a> {
    /// A server: is this user let in by the method `none` (RFC 4252, 5.2)?
    Admission {
        /// The user's name.
        user: &'a [u8],
    },
    /// A server: is this the password of this user (RFC 4252, 8)?
    Password {
        /// The user's name.
        user: &'a [u8],
        /// The password.
        password: &'a [u8],
    },
    /// A server: is this a key of this user (RFC 4252, 7)?
    Key {
        /// The user's name.
        user: &'a [u8],
        /// The name of the algorithm.
        algorithm: &'a [u8],
        /// The key, as it goes over the wire.
        key: &'a [u8],
    },
    /// A client: is this the key of the host (RFC 4253, 8)?
    HostKey {
        /// The name of the algorithm.
        algorithm: &'a [u8],
        /// The key, as it goes over the wire.
        key: &'a [u8],
    },
    /// A server: is this the signature by this key of `End::text_to_sign` (RFC 4252, 7)? The key had its yes.
    Signature {
        /// The user's name.
        user: &'a [u8],
        /// The name of the algorithm.
        algorithm: &'a [u8],
        /// The key, as it goes over the wire.
        key: &'a [u8],
        /// The signature, as it goes over the wire.
        signature: &'a [u8],
    },
    /// A client: is this the signature of the hash by this key of the host (RFC 4253, 8)? The key had its yes.
    HostSignature {
        /// The name of the algorithm.
        algorithm: &'a [u8],
        /// The key, as it goes over the wire.
        key: &'a [u8],
        /// The 32 bytes that the host signs: the hash of the exchange of keys.
        hash: &'a [u8],
        /// The signature, as it goes over the wire.
        signature: &'a [u8],
    },
}

// A password is no text for a log.
impl fmt::Debug for Wanted<'_> {
    fn fmt(&self, f: &mut fmt::Formatter<'_>) -> fmt::Result {
        match self {
            Wanted::Admission { user } => f.debug_struct("Admission").field("user", user).finish(),
            Wanted::Password { user, .. } => f.debug_struct("Password").field("user", user).finish_non_exhaustive(),
            Wanted::Key { user, algorithm, key } => {
                f.debug_struct("Key").field("user", user).field("algorithm", algorithm).field("key", key).finish()
            }
            Wanted::HostKey { algorithm, key } => {
                f.debug_struct("HostKey").field("algorithm", algorithm).field("key", key).finish()
            }
            Wanted::Signature { user, algorithm, key, .. } => {
                f.debug_struct("Signature").field("user", user).field("algorithm", algorithm).field("key", key).finish_non_exhaustive()
            }
            Wanted::HostSignature { algorithm, key, .. } => {
                f.debug_struct("HostSignature").field("algorithm", algorithm).field("key", key).finish_non_exhaustive()
            }
        }
    }
}

// SAFETY: the bytes have to stand for 'a.
pub(crate) unsafe fn wanted_of<'a>(wanted: &dv_wanted) -> Option<Wanted<'a>> {
    let (user, algorithm, data) = (borrow(wanted.user), borrow(wanted.algorithm), borrow(wanted.data));
    let (hash, signature) = (borrow(wanted.hash), borrow(wanted.signature));
    match wanted.kind {
        1 => Some(Wanted::Admission { user }),
        2 => Some(Wanted::Password { user, password: data }),
        3 => Some(Wanted::Key { user, algorithm, key: data }),
        4 => Some(Wanted::HostKey { algorithm, key: data }),
        5 => Some(Wanted::Signature { user, algorithm, key: data, signature }),
        6 => Some(Wanted::HostSignature { algorithm, key: data, hash, signature }),
        _ => None,
    }
}
