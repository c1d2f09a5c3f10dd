//! A server and a client of SSH-2 without sockets, over the library for C. What is proved is that library; this crate keeps the rules of
//! its pointers.
//!
//! Bytes of the peer and asks go in; bytes for the peer and events come out. `examples/run.rs` is a whole client over `std::io`. The crate
//! `divrelca-tokio` has clients and servers whose channels are streams.
//!
//! A server has its users from the start, or looks them up by name. Most clients, as OpenSSH, PuTTY, AsyncSSH and Go's, ask by the method
//! `none` first, which a server shows as `Event::Tried`; then the program copies the name, finds the keys and passwords of that user, and
//! hands them over by `End::set_user`:
//!
//! ```no_run
//! # use divrelca::{Error, Event, Login, Server, Shown};
//! # fn turn(server: &mut Server, find: impl Fn(&[u8]) -> Vec<[u8; 32]>) -> Result<(), Error> {
//! if let Event::Tried { user, shown: Shown::Nothing } = server.event() {
//!     let name = user.to_vec();
//!     let keys = find(&name);
//!     let logins: Vec<Login> = keys.iter().map(Login::Key).collect();
//!     match server.set_user(&name, &logins) {
//!         Err(Error::UserKnown) => {} // asked for before, and judged as before
//!         done => done?,
//!     }
//! }
//! # Ok(())
//! # }
//! ```
//!
//! A user is set once, and before a key or a password of that name is asked for; later the answer is `UserKnown`, so that the same request
//! always has the same answer. A client that begins by a key or a password, as paramiko, is judged by the users that the server has then.

#![warn(missing_docs)]

mod asks;
mod end;
mod error;
mod events;
pub mod keys;
pub mod patterns;
mod settings;
mod wanted;
pub mod wire;

pub use asks::Ask;
pub use end::{AsClient, AsEither, AsServer, Client, ClientRole, End, Role, Server, ServerRole};
pub use error::Error;
pub use events::{Event, Shown};
pub use settings::{Ciphers, ClientSettings, Login, Material, Methods, ServerSettings, User};
pub use wanted::Wanted;

use divrelca_sys::dv_bytes;

/// The version of the library: its first number in the upper 16 bits.
pub fn version() -> u32 {
    // SAFETY: the call takes nothing.
    unsafe { divrelca_sys::dv_version() }
}

/// The sum of the receipt of the library's build, 64 hexadecimal digits; other words where it has none, as "not proved".
pub fn receipt() -> &'static str {
    let mut sum = lend(&[]);
    // SAFETY: the call writes a dv_bytes that stands for ever.
    unsafe {
        divrelca_sys::dv_receipt(&mut sum);
        text(sum)
    }
}

/// The name of a message by its number, as "KEXINIT"; "UNKNOWN" where there is none.
pub fn message_name(number: u8) -> &'static str {
    let mut name = lend(&[]);
    // SAFETY: the call writes a dv_bytes that stands for ever.
    unsafe {
        divrelca_sys::dv_message_name(number, &mut name);
        text(name)
    }
}

// What C reads of a slice. A slice's pointer is never null.
fn lend(bytes: &[u8]) -> dv_bytes {
    dv_bytes { at: bytes.as_ptr(), len: bytes.len() }
}

// SAFETY: the bytes have to stand for 'a.
unsafe fn borrow<'a>(bytes: dv_bytes) -> &'a [u8] {
    std::slice::from_raw_parts(bytes.at, bytes.len)
}

// SAFETY: the bytes have to stand for ever.
unsafe fn text(bytes: dv_bytes) -> &'static str {
    std::str::from_utf8(borrow(bytes)).unwrap_or("UNKNOWN")
}
