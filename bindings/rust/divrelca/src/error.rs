//! Codes as errors.

use crate::{lend, text};
use std::fmt;

// The codes of the header: each name, number and text once.
macro_rules! errors {
    ($($(#[$range:meta])* $name:ident = $code:literal, $text:literal;)*) => {
        /// What a call refused: a code of `divrelca.h` other than 0.
        #[derive(Clone, Copy, Debug, PartialEq, Eq, Hash)]
        #[non_exhaustive]
        pub enum Error {
            $(
                $(#[$range])*
                #[doc = concat!("`", stringify!($code), "`: ", $text, ".")]
                $name,
            )*
            /// A code that this version of the crate does not know.
            Other(i32),
        }

        impl Error {
            fn of_code(code: i32) -> Self {
                match code {
                    $($code => Error::$name,)*
                    other => Error::Other(other),
                }
            }

            /// The number, in the ranges of the header: 1 to 12 a refused ask, 101 to 104 a setting, 201 and on a key file, 301 and on an
            /// argument, -1 memory, -2 the end is over.
            pub fn code(self) -> i32 {
                match self {
                    $(Error::$name => $code,)*
                    Error::Other(code) => code,
                }
            }

            /// What the code means, for people.
            pub fn text(self) -> &'static str {
                match self {
                    $(Error::$name => $text,)*
                    Error::Other(_) => "a code that is not known",
                }
            }

            /// All errors that this version knows.
            pub const ALL: &'static [Error] = &[$(Error::$name),*];
        }
    };
}

errors! {
    NotYet = 1, "it is too early: before the first exchange of keys, the service or the login";
    Busy = 2, "an exchange of keys, or another request, is under way";
    NoChannel = 3, "no channel of this number takes part";
    NoRoom = 4, "the peer's window is too small for the data";
    TooLong = 5, "the message would be too long";
    Ended = 6, "EOF or CLOSE was sent on the channel, or the login is over";
    TableFull = 7, "1,024 channels are in use";
    NothingOwed = 8, "no request of the peer waits for a reply";
    RekeyDue = 9, "an exchange of keys comes first";
    TooMuch = 10, "a window or a packet size is out of its bounds";
    WrongSide = 11, "it is for an end of the other role";
    NoMaterial = 12, "no pair of a cookie and a secret is kept: feed the end";
    BadSoftware = 101, "no version line has this software";
    BadList = 102, "a list of names is not good";
    BadLimit = 103, "a limit is out of its bounds";
    BadExtension = 104, "an extension is not good";
    FileBegin = 201, "there is no line that begins an OpenSSH private key";
    FileEnd = 202, "there is no line that ends an OpenSSH private key";
    FileBase64 = 203, "it is not base64";
    FileFormat = 204, "it is not of the format openssh-key-v1";
    FileUnencrypted = 205, "the key has a passphrase";
    FileEd25519 = 206, "it is not one key of ssh-ed25519";
    FilePair = 207, "the public key does not belong to the private key";
    FileKey = 208, "it is not a good public key of ssh-ed25519";
    FileHost = 209, "the line has no hosts and key";
    FileMark = 210, "the line has a mark that is not known";
    FileHashedHost = 211, "the hashed name is not |1|SALT|HASH";
    FileAuthorizedKey = 212, "the line is no key of ssh-ed25519, or has options before it";
    FileAnyHostKey = 213, "no key of ssh-ed25519 is known for this host";
    FileOneHostKey = 214, "several keys are known for this host";
    FileUnrevoked = 215, "the host's key is revoked";
    FileAnyKey = 216, "there is no key of ssh-ed25519";
    FilePassword = 217, "there is no password on one line";
    BadSize = 301, "the settings have another size than those of the library";
    BadKey = 302, "a key is not good, or there are too many";
    BadLogin = 303, "a user's name, password or kind of login is not good";
    BadMethods = 304, "the methods are not good";
    BadCiphers = 305, "the ciphers are not good";
    BadAsk = 306, "there is no such ask";
    NoKey = 307, "the client has no key of its user";
    NothingQueued = 308, "no ask waits";
    UserKnown = 309, "a key or a password of this user was asked for already, or the user was set before";
    Wanted = 310, "the next packet asks the program";
    NothingWanted = 311, "no answer is wanted";
    TooLate = 312, "a line of the peer was taken already";
    NoSignature = 313, "no signature was set for this login";
    BadSignature = 314, "a signature has no bytes, or too many";
    SignatureKnown = 315, "a signature was set for this login before, or the user's own key signs it";
    Memory = -1, "memory was refused";
    Over = -2, "the end is over";
}

impl Error {
    /// `Ok` for code 0, else the error.
    pub(crate) fn check(code: i32) -> Result<(), Error> {
        match code {
            0 => Ok(()),
            other => Err(Error::of_code(other)),
        }
    }

    /// The name that the library has for the code, as "NoChannel".
    pub fn name(self) -> &'static str {
        let mut name = lend(&[]);
        // SAFETY: the call writes a dv_bytes that stands for ever.
        unsafe {
            divrelca_sys::dv_code_name(self.code(), &mut name);
            text(name)
        }
    }

    /// Whether an ask came too early, and is made again after a later `take`; after `RekeyDue` by way of `Ask::Rekey`.
    pub fn is_later(self) -> bool {
        matches!(self, Error::NotYet | Error::Busy | Error::RekeyDue)
    }

    /// Whether what an ask was for is gone: the peer closed the channel, or the end is over.
    pub fn is_gone(self) -> bool {
        matches!(self, Error::NoChannel | Error::Ended | Error::NothingOwed | Error::Over)
    }
}

impl fmt::Display for Error {
    fn fmt(&self, f: &mut fmt::Formatter<'_>) -> fmt::Result {
        match self {
            Error::Other(code) => write!(f, "{} ({code})", self.text()),
            known => f.write_str(known.text()),
        }
    }
}

impl std::error::Error for Error {}
