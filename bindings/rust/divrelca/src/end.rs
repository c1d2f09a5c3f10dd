//! The two ends.

use crate::events::event_of;
use crate::wanted::wanted_of;
use crate::{borrow, lend, Ask, ClientSettings, Error, Event, Login, Material, ServerSettings, User, Wanted};
use divrelca_sys as sys;
use divrelca_sys::dv_event;
use std::fmt;
use std::marker::PhantomData;
use std::mem::ManuallyDrop;

/// The role of an end: a server's, a client's, or either. No other crate can add one.
pub trait Role: sealed::Sealed {}

/// A role that may be a server's.
pub trait ServerRole: Role {}

/// A role that may be a client's.
pub trait ClientRole: Role {}

mod sealed {
    pub trait Sealed {}
}

/// The role of a server.
pub enum AsServer {}
/// The role of a client.
pub enum AsClient {}
/// Either role, for a program that treats both alike: `From<Server>` and `From<Client>` make such an end.
pub enum AsEither {}
impl sealed::Sealed for AsServer {}
impl sealed::Sealed for AsClient {}
impl sealed::Sealed for AsEither {}
impl Role for AsServer {}
impl Role for AsClient {}
impl Role for AsEither {}
impl ServerRole for AsServer {}
impl ServerRole for AsEither {}
impl ClientRole for AsClient {}
impl ClientRole for AsEither {}

/// One end. What it lends, an event or its output, stands until the next call that changes it. It may move to another thread.
pub struct End<R: Role> {
    handle: sys::dv_end,
    role: PhantomData<*mut R>,
}

// SAFETY: a handle of the library may go to another thread, which is proved of it, and `&mut self` keeps one call at a time.
unsafe impl<R: Role> Send for End<R> {}

impl From<Server> for End<AsEither> {
    fn from(end: Server) -> Self {
        End { handle: ManuallyDrop::new(end).handle, role: PhantomData }
    }
}

impl From<Client> for End<AsEither> {
    fn from(end: Client) -> Self {
        End { handle: ManuallyDrop::new(end).handle, role: PhantomData }
    }
}

impl<R: Role> fmt::Debug for End<R> {
    fn fmt(&self, f: &mut fmt::Formatter<'_>) -> fmt::Result {
        f.debug_struct("End").field("is_over", &self.is_over()).field("queued", &self.queued()).finish_non_exhaustive()
    }
}

/// A server.
pub type Server = End<AsServer>;
/// A client.
pub type Client = End<AsClient>;

impl Server {
    /// Makes a server, which put out its version line and its first KEXINIT. `padding` is random and is used for nothing else.
    ///
    /// # Errors
    /// Where a setting is not good (101 to 104 and 301 to 305), or memory is refused.
    pub fn new(settings: &ServerSettings<'_>, first: &Material, padding: &[u8; 32]) -> Result<Self, Error> {
        let users: Vec<sys::dv_user> = settings.users.iter().map(in_c).collect();
        let given = sys::dv_server_settings {
            size: std::mem::size_of::<sys::dv_server_settings>(),
            software: lend(settings.software),
            host_seed: lend(settings.host_seed),
            users: users.as_ptr(),
            users_len: users.len(),
            epoch_limit: settings.epoch_limit,
            tries: settings.tries,
            methods: settings.methods as u32,
            ciphers: settings.ciphers as u32,
            user_algorithms: lend(settings.user_algorithms),
        };
        let mut handle = sys::dv_end { at: std::ptr::null_mut() };
        // SAFETY: all that the settings point at stands during the call, and the handle is used only after code 0.
        Error::check(unsafe { sys::dv_server_new(&mut handle, &given, &first.in_c(), padding) })?;
        Ok(End { handle, role: PhantomData })
    }
}

impl<R: ServerRole> End<R> {
    /// Sets what lets the user of this name in, besides what the server has. Without logins nobody is let in by this call. The time for
    /// it is `Event::Tried` of `Shown::Nothing`, before the next `take`.
    ///
    /// # Errors
    /// `BadKey` and `BadLogin` of a login or a name, `UserKnown` where a key or a password of the user was asked for already or the user
    /// was set before, `WrongSide` of a client's end, `Memory`, `Over`. Nothing changed then.
    pub fn set_user(&mut self, name: &[u8], logins: &[Login<'_>]) -> Result<(), Error> {
        let users: Vec<sys::dv_user> = logins.iter().map(|&login| in_c(&User { name, login })).collect();
        // SAFETY: the handle is one that `new` wrote, and all that is pointed at stands during the call.
        Error::check(unsafe { sys::dv_server_set_user(&mut self.handle, name.as_ptr(), name.len(), users.as_ptr(), users.len()) })
    }
}

fn in_c(user: &User<'_>) -> sys::dv_user {
    match user.login {
        Login::Key(key) => sys::dv_user { name: lend(user.name), login: lend(key), kind: 1 },
        Login::Password(word) => sys::dv_user { name: lend(user.name), login: lend(word), kind: 2 },
    }
}

impl Client {
    /// Makes a client, which put out its version line and its first KEXINIT. `padding` is random and is used for nothing else.
    ///
    /// # Errors
    /// Where a setting is not good (101 to 104 and 301 to 305), or memory is refused.
    pub fn new(settings: &ClientSettings<'_>, first: &Material, padding: &[u8; 32]) -> Result<Self, Error> {
        let host_keys = settings.host_keys.concat();
        let algorithms: Vec<sys::dv_bytes> = settings.host_algorithms.iter().map(|it| lend(it)).collect();
        let given = sys::dv_client_settings {
            size: std::mem::size_of::<sys::dv_client_settings>(),
            software: lend(settings.software),
            host_key: lend(&host_keys),
            user_seed: settings.user_seed.map_or(lend(&[]), |it| lend(it)),
            host_algorithms: algorithms.as_ptr(),
            host_algorithms_len: algorithms.len(),
            epoch_limit: settings.epoch_limit,
            ciphers: settings.ciphers as u32,
            takes_extensions: settings.takes_extensions,
        };
        let mut handle = sys::dv_end { at: std::ptr::null_mut() };
        // SAFETY: all that the settings point at stands during the call, and the handle is used only after code 0.
        Error::check(unsafe { sys::dv_client_new(&mut handle, &given, &first.in_c(), padding) })?;
        Ok(End { handle, role: PhantomData })
    }
}

impl<R: ClientRole> End<R> {
    /// Gives the client a signature of `text_to_sign` of this user, algorithm and key, as an agent made it: 1 to 4,096 bytes. Ask for the login
    /// then: `Ask::LoginKeyBy`. The first signature of a text counts.
    ///
    /// # Errors
    /// `BadSignature` where it has no bytes or too many, `SignatureKnown` where one was given before or the user's own key signs this text,
    /// `NotYet` before the first exchange of keys is over, `TooLong`, `WrongSide` of a server's end, `Memory`, `Over`. Nothing changed then.
    pub fn set_signature(&mut self, user: &[u8], algorithm: &[u8], key: &[u8], signature: &[u8]) -> Result<(), Error> {
        // SAFETY: the handle is one that `new` wrote, and all that is pointed at stands during the call.
        Error::check(unsafe {
            sys::dv_set_signature(
                &mut self.handle,
                user.as_ptr(),
                user.len(),
                algorithm.as_ptr(),
                algorithm.len(),
                key.as_ptr(),
                key.len(),
                signature.as_ptr(),
                signature.len(),
            )
        })
    }
}

// The most bytes of the text of a login.
const MOST_SIGNED: usize = 35_036;

// SAFETY, of all calls here: the handle is one that `new` wrote, and `&mut self` and the lifetimes of what is lent keep one call at a
// time.
impl<R: Role> End<R> {
    // The handle, for calls that change nothing. What the end lends borrows it as mutable, and it is not Sync: no other call runs, and
    // nothing that is lent stands.
    fn at(&self) -> sys::dv_end {
        self.handle
    }

    /// From here on `take` uses no byte of a packet that the program has to decide on, and `wanted` shows the question: at a server a request
    /// for authentication of a user without an entry, at a client a host key that it was not made with. Call it right after the end is made.
    ///
    /// # Errors
    /// `TooLate` where a line of the peer was taken already, and `Memory`. Nothing changed then.
    pub fn decide_later(&mut self) -> Result<(), Error> {
        Error::check(unsafe { sys::dv_decide_later(&mut self.handle) })
    }

    /// Takes bytes of the peer to the end of one line or one packet, and answers how many it used; the rest is given again. It uses none of
    /// some bytes only after `decide_later`, where the next packet asks the program: `wanted`.
    ///
    /// # Errors
    /// `Memory`, after which the end is over, and `Over` where it is.
    pub fn take(&mut self, bytes: &[u8]) -> Result<usize, Error> {
        let mut used = 0;
        match Error::check(unsafe { sys::dv_take(&mut self.handle, bytes.as_ptr(), bytes.len(), &mut used) }) {
            Ok(()) | Err(Error::Wanted) => Ok(used),
            Err(error) => Err(error),
        }
    }

    /// What the last `take` wants the program to decide, until the next call that changes the end. The peer chose its bytes: do not show
    /// them to people as they are.
    pub fn wanted(&mut self) -> Option<Wanted<'_>> {
        let none = || lend(&[]);
        let mut wanted = sys::dv_wanted { kind: 0, user: none(), algorithm: none(), data: none(), hash: none(), signature: none() };
        unsafe {
            sys::dv_show_wanted(&mut self.handle, &mut wanted);
            wanted_of(&wanted)
        }
    }

    /// Says whether the program accepts what is wanted. The first answer to a question counts for the whole session. What is not accepted is
    /// refused, and so is all that is not asked. Then the same bytes are taken.
    ///
    /// # Errors
    /// `NothingWanted` where no answer is, and `Memory`. Nothing is said then.
    pub fn answer(&mut self, accepts: bool) -> Result<(), Error> {
        Error::check(unsafe { sys::dv_answer(&mut self.handle, accepts) })
    }

    /// The text that a login of this user signs by this key, which is given as it goes over the wire (RFC 4252, 7). It begins with the session
    /// id.
    ///
    /// # Errors
    /// `NotYet` before the first exchange of keys is over, and `TooLong` where no packet has room for such a request.
    pub fn text_to_sign(&mut self, user: &[u8], algorithm: &[u8], key: &[u8]) -> Result<Vec<u8>, Error> {
        let (mut text, mut written) = (vec![0; MOST_SIGNED], 0);
        Error::check(unsafe {
            sys::dv_text_to_sign(
                &mut self.handle,
                user.as_ptr(),
                user.len(),
                algorithm.as_ptr(),
                algorithm.len(),
                key.as_ptr(),
                key.len(),
                text.as_mut_ptr(),
                text.len(),
                &mut written,
            )
        })?;
        text.truncate(written);
        Ok(text)
    }

    /// What the last `take` did, until the next `take`, `ask`, `work` or `send`.
    pub fn event(&mut self) -> Event<'_> {
        let mut event = dv_event {
            kind: 0,
            channel: 0,
            window: 0,
            max_packet: 0,
            number: 0,
            took: 0,
            flag: false,
            extended: false,
            name: lend(&[]),
            data: lend(&[]),
        };
        unsafe {
            sys::dv_show_event(&mut self.handle, &mut event);
            event_of(&event)
        }
    }

    /// The payload at this place of those that the end sent in its last `take`, `ask`, `send` or `work`: a whole message, the oldest first.
    pub fn sent(&mut self, place: usize) -> Option<&[u8]> {
        let mut payload = lend(&[]);
        unsafe { sys::dv_sent(&mut self.handle, place, &mut payload).then(|| borrow(payload)) }
    }

    /// The version line of the peer without CR LF, once it has come. The peer chose it: do not show it to people as it is.
    pub fn peer_version(&mut self) -> Option<&[u8]> {
        let mut line = lend(&[]);
        unsafe { sys::dv_peer_version(&mut self.handle, &mut line).then(|| borrow(line)) }
    }

    /// The session id, 32 bytes (RFC 4253, 7.2), once an exchange of keys is over.
    pub fn session_id(&mut self) -> Option<&[u8]> {
        let mut id = lend(&[]);
        unsafe { sys::dv_session_id(&mut self.handle, &mut id).then(|| borrow(id)) }
    }

    /// The bytes that wait for the peer.
    pub fn output(&mut self) -> &[u8] {
        let mut bytes = lend(&[]);
        unsafe {
            sys::dv_output(&mut self.handle, &mut bytes);
            borrow(bytes)
        }
    }

    /// Says that the first `count` bytes of the output were written: they are dropped.
    pub fn written(&mut self, count: usize) {
        unsafe { sys::dv_written(&mut self.handle, count) }
    }

    /// Keeps a pair for the next exchange of keys; false where the end keeps one, or can take no more. Call it after each `take`.
    pub fn feed(&mut self, material: &Material) -> bool {
        unsafe { sys::dv_feed(&mut self.handle, &material.in_c()) }
    }

    /// Whether the end takes nothing and sends nothing. What it put out is still to be written.
    pub fn is_over(&self) -> bool {
        unsafe { sys::dv_is_over(&mut self.at()) }
    }

    /// Whether as many packets were sent under the keys as `epoch_limit` says: ask for `Ask::Rekey`.
    pub fn rekey_due(&self) -> bool {
        unsafe { sys::dv_rekey_due(&mut self.at()) }
    }

    /// How many bytes of data the peer's window takes on the channel; 0 where it is not confirmed.
    pub fn room(&self, channel: u32) -> u32 {
        unsafe { sys::dv_room(&mut self.at(), channel) }
    }

    /// Does what is asked for, now, and answers the number of the channel that it opens.
    ///
    /// # Errors
    /// Where it is refused (1 to 12), `NoKey`, `Memory` and `Over`.
    pub fn ask(&mut self, ask: &Ask<'_>) -> Result<Option<u32>, Error> {
        let mut channel = 0;
        Error::check(unsafe { sys::dv_ask_now(&mut self.handle, &ask.in_c(), &mut channel) })?;
        Ok(matches!(ask, Ask::Open { .. }).then_some(channel))
    }

    /// Puts an ask after those that wait; its bytes are copied. One that names a channel is for the channel that has the number now.
    ///
    /// # Errors
    /// `NoKey` of a login by a key that the client has not, and `Memory`.
    pub fn queue(&mut self, ask: &Ask<'_>) -> Result<(), Error> {
        Error::check(unsafe { sys::dv_queue(&mut self.handle, &ask.in_c()) })
    }

    /// How many asks wait.
    pub fn queued(&self) -> usize {
        unsafe { sys::dv_queued(&mut self.at()) }
    }

    /// Makes the oldest ask that waits, and answers the number of the channel that it opened. Where `is_later` holds of the error the ask
    /// stays; else it waits no longer.
    ///
    /// # Errors
    /// As of `ask`, `NoChannel` where the channel for which the ask was queued is over, and `NothingQueued`.
    pub fn work(&mut self) -> Result<Option<u32>, Error> {
        let mut channel = u32::MAX; // written by an ask that opens a channel alone
        Error::check(unsafe { sys::dv_work(&mut self.handle, &mut channel) })?;
        Ok((channel != u32::MAX).then_some(channel))
    }

    /// Queues the answer that the peer is owed for what `event` shows, where a program does not know what that is about.
    ///
    /// # Errors
    /// `Memory`.
    pub fn decline(&mut self) -> Result<(), Error> {
        Error::check(unsafe { sys::dv_decline(&mut self.handle) })
    }

    /// Sends as much data as window, packet and 32,768 bytes allow, and answers how many bytes that is; `kind` is that of extended data, 1
    /// of standard error.
    ///
    /// # Errors
    /// As of `ask`. Where nothing fits the answer is 0.
    pub fn send(&mut self, channel: u32, kind: Option<std::num::NonZeroU32>, body: &[u8]) -> Result<usize, Error> {
        let (mut taken, stream) = (0, kind.map_or(0, |it| it.get()));
        Error::check(unsafe { sys::dv_send(&mut self.handle, channel, stream, body.as_ptr(), body.len(), &mut taken) })?;
        Ok(taken)
    }

    /// Says that so many bytes of data that came on the channel are done with. Once half of the window is, an ask that gives them back is
    /// queued.
    ///
    /// # Errors
    /// `NoChannel` where the number is none of a channel, and `Memory`.
    pub fn consume(&mut self, channel: u32, bytes: usize) -> Result<(), Error> {
        Error::check(unsafe { sys::dv_consume(&mut self.handle, channel, bytes) })
    }
}

impl<R: Role> Drop for End<R> {
    fn drop(&mut self) {
        // SAFETY: the handle is not used again.
        unsafe { sys::dv_free(self.handle) }
    }
}
