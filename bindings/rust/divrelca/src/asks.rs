//! What an end is asked for.

use crate::{borrow, lend};
use divrelca_sys::dv_ask;
use std::fmt;

/// What an end is asked for. What it holds is read during the call alone.
#[derive(Clone, Copy, PartialEq, Eq)]
#[non_exhaustive]
#[allow(missing_docs)] // of fields: they are named as in the RFCs
pub enum Ask<'a> {
    /// Begins an exchange of keys.
    Rekey,
    /// Ends the connection; at most 1,024 bytes.
    Disconnect { description: &'a [u8] },
    /// Client: asks for the service of authentication, after the first exchange of keys.
    Service,
    /// Client: a login by no method, which shows what methods there are.
    LoginNone { user: &'a [u8] },
    /// Client: a login by password.
    LoginPassword { user: &'a [u8], password: &'a [u8] },
    /// Client: whether the user's key would do.
    LoginProbe { user: &'a [u8] },
    /// Client: a login by the user's key, signed.
    LoginKey { user: &'a [u8] },
    /// Client: whether this key would do, which is given as it goes over the wire.
    LoginProbeBy { user: &'a [u8], algorithm: &'a [u8], key: &'a [u8] },
    /// Client: a login by this key, with the signature that `End::set_signature` gave.
    LoginKeyBy { user: &'a [u8], algorithm: &'a [u8], key: &'a [u8] },
    /// Opens a channel; its number is answered.
    Open { kind: &'a [u8], window: u32, max_packet: u32, rest: &'a [u8] },
    /// Confirms a channel that the peer opened.
    Confirm { channel: u32, window: u32, max_packet: u32, rest: &'a [u8] },
    /// Refuses it, by a reason of RFC 4254, 5.1.
    Refuse { channel: u32, reason: u32 },
    /// Sends data.
    Data { channel: u32, body: &'a [u8] },
    /// Sends extended data: kind 1 is standard error.
    ExtendedData { channel: u32, kind: u32, body: &'a [u8] },
    /// Lets the peer send so many bytes more.
    Adjust { channel: u32, bytes: u32 },
    /// Says that no more data is sent.
    Eof { channel: u32 },
    /// Closes the channel.
    Close { channel: u32 },
    /// A request on a channel.
    Request { channel: u32, name: &'a [u8], want: bool, rest: &'a [u8] },
    /// Replies to the peer's oldest request on the channel.
    Reply { channel: u32, success: bool },
    /// A global request.
    Global { name: &'a [u8], want: bool, rest: &'a [u8] },
    /// Replies to the peer's oldest global request.
    GlobalReply { success: bool, rest: &'a [u8] },
}

// An ask of this kind with nothing else.
fn plain(kind: u32, channel: u32) -> dv_ask {
    dv_ask { kind, channel, window: 0, max_packet: 0, number: 0, flag: false, name: lend(&[]), data: lend(&[]), algorithm: lend(&[]) }
}

impl Ask<'_> {
    // What C reads, as long as `self` stands.
    pub(crate) fn in_c(&self) -> dv_ask {
        match *self {
            Ask::Rekey => plain(1, 0),
            Ask::Disconnect { description } => dv_ask { data: lend(description), ..plain(2, 0) },
            Ask::Service => plain(3, 0),
            Ask::LoginNone { user } => dv_ask { name: lend(user), ..plain(4, 0) },
            Ask::LoginPassword { user, password } => dv_ask { name: lend(user), data: lend(password), ..plain(5, 0) },
            Ask::LoginProbe { user } => dv_ask { name: lend(user), ..plain(6, 0) },
            Ask::LoginKey { user } => dv_ask { name: lend(user), ..plain(7, 0) },
            Ask::LoginProbeBy { user, algorithm, key } => {
                dv_ask { name: lend(user), data: lend(key), algorithm: lend(algorithm), ..plain(6, 0) }
            }
            Ask::LoginKeyBy { user, algorithm, key } => {
                dv_ask { name: lend(user), data: lend(key), algorithm: lend(algorithm), ..plain(7, 0) }
            }
            Ask::Open { kind, window, max_packet, rest } => {
                dv_ask { window, max_packet, name: lend(kind), data: lend(rest), ..plain(8, 0) }
            }
            Ask::Confirm { channel, window, max_packet, rest } => dv_ask { window, max_packet, data: lend(rest), ..plain(9, channel) },
            Ask::Refuse { channel, reason } => dv_ask { number: reason, ..plain(10, channel) },
            Ask::Data { channel, body } => dv_ask { data: lend(body), ..plain(11, channel) },
            Ask::ExtendedData { channel, kind, body } => dv_ask { number: kind, data: lend(body), ..plain(12, channel) },
            Ask::Adjust { channel, bytes } => dv_ask { number: bytes, ..plain(13, channel) },
            Ask::Eof { channel } => plain(14, channel),
            Ask::Close { channel } => plain(15, channel),
            Ask::Request { channel, name, want, rest } => dv_ask { flag: want, name: lend(name), data: lend(rest), ..plain(16, channel) },
            Ask::Reply { channel, success } => dv_ask { flag: success, ..plain(17, channel) },
            Ask::Global { name, want, rest } => dv_ask { flag: want, name: lend(name), data: lend(rest), ..plain(18, 0) },
            Ask::GlobalReply { success, rest } => dv_ask { flag: success, data: lend(rest), ..plain(19, 0) },
        }
    }
}

// Data may be a password: of it the length alone is shown.
impl fmt::Debug for Ask<'_> {
    fn fmt(&self, f: &mut fmt::Formatter<'_>) -> fmt::Result {
        let form = self.in_c();
        // SAFETY: the bytes are those of `self`.
        let (name, data) = unsafe { (borrow(form.name), borrow(form.data)) };
        let mut shown = f.debug_struct("Ask");
        shown.field("kind", &form.kind).field("channel", &form.channel).field("name", &name.escape_ascii().to_string());
        shown.field("bytes", &data.len()).finish_non_exhaustive()
    }
}
