//! What a take did.

use crate::borrow;
use divrelca_sys::dv_event;

/// What a user showed to be let in.
#[derive(Clone, Copy, Debug, PartialEq, Eq)]
#[non_exhaustive]
pub enum Shown<'a> {
    /// Nothing: the method `none`.
    Nothing,
    /// A signature by this key.
    Key(&'a [u8]),
    /// A password.
    Password,
    /// This key without a signature, which asks whether it would do.
    Probe(&'a [u8]),
    /// Something by the method of this name, which let nobody in.
    Other(&'a [u8]),
}

fn shown(number: u32, data: &[u8]) -> Shown<'_> {
    match number {
        1 => Shown::Key(data),
        2 => Shown::Password,
        3 => Shown::Probe(data),
        4 => Shown::Other(data),
        _ => Shown::Nothing,
    }
}

/// What was done in the last `take`. Its bytes are lent by the end, until the next call that changes it.
#[derive(Clone, Copy, Debug, PartialEq, Eq)]
#[non_exhaustive]
#[allow(missing_docs)] // of fields: they are named as in the RFCs
pub enum Event<'a> {
    /// No whole line or packet yet, or one of which nothing is told.
    Nothing,
    /// The peer is refused, and the end is over. `name` is that of the refusal, as "BadTag".
    Refused { number: u32, name: &'a [u8] },
    /// An exchange of keys is over at this end. The first has position 1.
    Completed { position: u32 },
    /// Client: the service is there, and a login can be asked for.
    Service,
    /// Server: the user is let in, by what it showed. A key is the one whose signature was verified, and never one that was only
    /// offered: `keys::of_blob` reads it.
    Accepted { user: &'a [u8], shown: Shown<'a> },
    /// Client: the user is let in, as the answer to a request that showed this. The key of a request is known to the caller, so it is
    /// empty here.
    Authenticated { shown: Shown<'a> },
    /// Client: the login failed. `methods` can go on, with commas between them.
    Failed { methods: &'a [u8], partial: bool },
    /// Client: a text to show before the login.
    Banner { message: &'a [u8] },
    /// Client: a signature by this key would be looked at.
    KeyOk { algorithm: &'a [u8], key: &'a [u8] },
    /// A message that means nothing here.
    Ignored,
    /// A message for a log.
    Debugged { display: bool, message: &'a [u8] },
    /// The peer did not understand the packet of this sequence number.
    Unimplemented { number: u32 },
    /// The peer ended the connection, and the end is over.
    Disconnected { reason: u32, description: &'a [u8] },
    /// The peer announced so many extensions: of each the name and the value, both strings (`wire::Take` reads them; RFC 8308, 2.3).
    Extensions { count: u32, rest: &'a [u8] },
    /// Server: a request for authentication that did not let the user in. After `Shown::Nothing` the user can be looked up:
    /// `End::set_user`.
    Tried { user: &'a [u8], shown: Shown<'a> },
    /// A global request.
    Global { name: &'a [u8], want: bool, rest: &'a [u8] },
    /// The reply to this end's oldest global request.
    GlobalDone { success: bool, rest: &'a [u8] },
    /// The peer opens a channel: confirm or refuse it.
    Opened { channel: u32, kind: &'a [u8], window: u32, max_packet: u32, rest: &'a [u8] },
    /// The peer confirms a channel.
    Confirmed { channel: u32, window: u32, max_packet: u32, rest: &'a [u8] },
    /// The peer refuses a channel.
    OpenFailed { channel: u32, reason: u32, description: &'a [u8] },
    /// Data came. `kind` is that of extended data, 1 of standard error.
    Data { channel: u32, kind: Option<u32>, body: &'a [u8] },
    /// The window for this end's data grew by so many bytes.
    Adjusted { channel: u32, bytes: u32 },
    /// The peer sends no more data.
    Ended { channel: u32 },
    /// The peer closed the channel.
    Closed { channel: u32 },
    /// A request on a channel.
    Requested { channel: u32, name: &'a [u8], want: bool, rest: &'a [u8] },
    /// The reply to this end's oldest request on the channel.
    RequestDone { channel: u32, success: bool },
}

// SAFETY: the bytes of the event have to stand for 'a.
pub(crate) unsafe fn event_of<'a>(e: &dv_event) -> Event<'a> {
    let (channel, number, flag) = (e.channel, e.number, e.flag);
    let (name, data): (&'a [u8], &'a [u8]) = (borrow(e.name), borrow(e.data));
    match e.kind {
        1 => Event::Refused { number, name },
        2 => Event::Completed { position: number },
        3 => Event::Service,
        4 => Event::Accepted { user: name, shown: shown(number, data) },
        5 => Event::Authenticated { shown: shown(number, data) },
        6 => Event::Failed { methods: data, partial: flag },
        7 => Event::Banner { message: data },
        8 => Event::KeyOk { algorithm: name, key: data },
        9 => Event::Ignored,
        10 => Event::Debugged { display: flag, message: data },
        11 => Event::Unimplemented { number },
        12 => Event::Disconnected { reason: number, description: data },
        13 => Event::Extensions { count: number, rest: data },
        14 => Event::Tried { user: name, shown: shown(number, data) },
        16 => Event::Global { name, want: flag, rest: data },
        17 => Event::GlobalDone { success: flag, rest: data },
        19 => Event::Opened { channel, kind: name, window: e.window, max_packet: e.max_packet, rest: data },
        20 => Event::Confirmed { channel, window: e.window, max_packet: e.max_packet, rest: data },
        21 => Event::OpenFailed { channel, reason: number, description: data },
        22 => Event::Data { channel, kind: e.extended.then_some(number), body: data },
        23 => Event::Adjusted { channel, bytes: number },
        24 => Event::Ended { channel },
        25 => Event::Closed { channel },
        26 => Event::Requested { channel, name, want: flag, rest: data },
        27 => Event::RequestDone { channel, success: flag },
        _ => Event::Nothing,
    }
}
