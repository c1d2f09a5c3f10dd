//! SSH-2 over tokio: a client ([`client::connect`]) and a server ([`server::serve`]) whose channels are streams. The protocol is that of
//! the crate `divrelca`; this crate carries bytes, and has no cryptography and no parser of packets.
//!
//! Each connection has one task, its driver, that reads and writes the socket, exchanges keys, gives windows back and asks a silent peer
//! for a sign of life. Handles share the state of the connection with it. So each call here can be cancelled without loss: what was not
//! taken is still there, and a handle that is dropped closes its channel, or its connection.

#![forbid(unsafe_code)]
#![warn(missing_docs)]

mod accepted;
mod agent;
mod channel;
pub mod client;
mod decide;
mod driver;
mod error;
mod joined;
mod offer;
mod polls;
mod serve;
pub mod server;
mod session;
#[cfg(feature = "ring")]
pub mod signatures;
mod slot;
mod state;
mod table;

pub use agent::{Agent, AgentKey};
pub use channel::{Channel, Exit, Request, Stream};
pub use decide::{decide, Answer, Decide, Question};
pub use divrelca::{keys, patterns, wire, Ciphers, Methods};
pub use driver::Keepalive;
pub use error::{Error, Result};
pub use joined::Joined;
pub use offer::Offer;

// Bytes of a peer as text, without what could steer a terminal.
fn plain(bytes: &[u8]) -> String {
    String::from_utf8_lossy(bytes).chars().map(|it| if it.is_control() { '\u{fffd}' } else { it }).collect()
}
