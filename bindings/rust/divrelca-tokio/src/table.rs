//! What a connection hears, and whom it tells.

use crate::channel::Exit;
use crate::plain;
use crate::server::{Attempt, Shown};
use crate::slot::{Asked, Owed, Slot, Waits};
use crate::{Error, Result};
use divrelca::wire::Take;
use divrelca::Event;
use std::collections::{HashMap, VecDeque};
use std::task::Waker;
use tokio::sync::oneshot;

const MOST_REQUESTS: usize = 64;
const MOST_BANNER: usize = 1 << 16;
const MOST_TRIED: usize = 32;
const MOST_LISTENS: usize = 16;

/// A channel that the peer opened, and nobody holds yet.
pub(crate) struct Opened {
    pub number: u32,
    pub kind: String,
    pub rest: Vec<u8>,
}

/// The peer asks that connections to a port are carried to it, or are no longer.
pub(crate) struct Listens {
    pub begins: bool,
    pub address: String,
    pub port: u32,
    pub owed: Option<u64>,
}

/// What came of a login, or of waiting for one.
pub(crate) enum Login {
    Ready,
    LetIn(Vec<u8>, Shown),
    Failed(String),
    /// The server would look at a signature by this key.
    KeyOk(Vec<u8>, Vec<u8>),
}

/// What the end is asked for after an event.
pub(crate) enum Then {
    Nothing,
    Decline,
    Consume(u32, usize),
    Close(u32),
    Refuse(u32),
    Service,
    Reply(u64),
    ReplyGlobal,
    LookUp(Vec<u8>),
}

/// What the connection tells of its events, besides the end.
#[derive(Default)]
pub(crate) struct Table {
    pub is_client: bool,
    pub most_channels: usize,
    /// Whether channels of the peer are offered: always at a server, and at a client that asked for a port.
    pub takes_channels: bool,
    /// Server: whether requests for ports are offered.
    pub takes_listens: bool,
    pub slots: HashMap<u64, Slot>,
    pub numbers: HashMap<u32, u64>,
    pub next: u64,
    pub login: Option<oneshot::Sender<Login>>,
    /// Server: who tried to come in, and by what.
    pub tried: Vec<Attempt>,
    pub banner: String,
    pub offers: VecDeque<Opened>,
    pub acceptor: Option<Waker>,
    pub listens: VecDeque<Listens>,
    pub listener: Option<Waker>,
    /// Answers to the peer's global requests, and those that this end waits for.
    pub owed: Owed<Option<Vec<u8>>>,
    pub globals: VecDeque<Option<oneshot::Sender<Option<Vec<u8>>>>>,
}

impl Table {
    pub fn add(&mut self, slot: Slot) -> u64 {
        self.next += 1;
        self.slots.insert(self.next, slot);
        self.next
    }

    pub fn find(&mut self, channel: u32) -> Option<&mut Slot> {
        self.slots.get_mut(self.numbers.get(&channel)?)
    }

    fn tell(&mut self, what: Login) -> Then {
        if let Some(login) = self.login.take() {
            let _ = login.send(what);
        }
        Then::Nothing
    }

    /// Takes part no more.
    pub fn shut(&mut self) {
        self.login = None;
        self.globals.clear();
        for slot in self.slots.values_mut() {
            slot.opened = None;
            slot.shut();
        }
        self.acceptor.take().into_iter().chain(self.listener.take()).for_each(Waker::wake);
    }

    /// Hears an event.
    pub fn hear(&mut self, event: Event<'_>) -> Result<Then> {
        Ok(match event {
            Event::Data { channel, kind, body } => self.data(channel, kind, body),
            Event::Adjusted { .. } | Event::Nothing => Then::Nothing,
            Event::Ended { channel } => self.ended(channel),
            Event::Closed { channel } => self.closed(channel),
            Event::Requested { channel, name, want, rest } => self.requested(channel, name, want, rest),
            Event::RequestDone { channel, success } => {
                if let Some(reply) = self.find(channel).and_then(|it| it.replies.pop_front()) {
                    let _ = reply.send(success);
                }
                Then::Nothing
            }
            Event::Confirmed { channel, .. } => self.confirmed(channel),
            Event::OpenFailed { channel, reason, description } => {
                let why = Error::NoChannel { reason, description: plain(description) };
                if let Some(opened) = self.find(channel).and_then(|it| it.opened.take()) {
                    let _ = opened.send(Err(why));
                }
                self.numbers.remove(&channel);
                Then::Nothing
            }
            Event::Opened { channel, kind, rest, .. } => self.opened(channel, kind, rest),
            Event::Global { name, want, rest } => self.global(name, want, rest),
            Event::GlobalDone { success, rest } => {
                if let Some(Some(hears)) = self.globals.pop_front() {
                    let _ = hears.send(success.then(|| rest.to_vec()));
                }
                Then::Nothing
            }
            other => return self.of_connection(other),
        })
    }

    // Events of the transport and of the login.
    fn of_connection(&mut self, event: Event<'_>) -> Result<Then> {
        Ok(match event {
            Event::Completed { position } => {
                tracing::debug!(position, "an exchange of keys is over");
                if position == 1 && self.is_client {
                    Then::Service
                } else {
                    Then::Nothing
                }
            }
            Event::Service => self.tell(Login::Ready),
            Event::Authenticated { .. } => self.tell(Login::LetIn(Vec::new(), Shown::Nothing)),
            Event::Accepted { user, shown } => self.tell(Login::LetIn(user.to_vec(), Shown::of(shown))),
            Event::Failed { methods, .. } => self.tell(Login::Failed(plain(methods))),
            Event::KeyOk { algorithm, key } => self.tell(Login::KeyOk(algorithm.to_vec(), key.to_vec())),
            Event::Tried { user, shown: divrelca::Shown::Nothing } => Then::LookUp(user.to_vec()),
            Event::Tried { user, shown } => {
                if self.tried.len() < MOST_TRIED {
                    self.tried.push(Attempt { user: user.to_vec(), shown: Shown::of(shown) });
                }
                Then::Nothing
            }
            Event::Banner { message } => {
                if self.banner.len() < MOST_BANNER {
                    self.banner += &String::from_utf8_lossy(message);
                }
                Then::Nothing
            }
            Event::Refused { name, .. } => return Err(Error::Refused(plain(name))),
            Event::Disconnected { reason, description } => {
                return Err(Error::Disconnected { reason, description: plain(description) });
            }
            _ => Then::Decline,
        })
    }

    fn data(&mut self, channel: u32, kind: Option<u32>, body: &[u8]) -> Then {
        let (place, who) = match kind {
            None => (0, Waits::Out),
            Some(1) => (1, Waits::Err),
            Some(_) => return Then::Consume(channel, body.len()),
        };
        match self.find(channel) {
            Some(slot) => {
                slot.input[place].extend(body);
                slot.wake(who);
                Then::Nothing
            }
            None => Then::Consume(channel, body.len()),
        }
    }

    fn ended(&mut self, channel: u32) -> Then {
        if let Some(slot) = self.find(channel) {
            slot.ended = true;
            slot.wake(Waits::Out);
            slot.wake(Waits::Err);
        }
        Then::Nothing
    }

    fn closed(&mut self, channel: u32) -> Then {
        if let Some(slot) = self.find(channel) {
            (slot.ended, slot.was_closed) = (true, true);
            slot.shut();
        }
        self.numbers.remove(&channel);
        Then::Nothing
    }

    fn requested(&mut self, channel: u32, name: &[u8], want: bool, rest: &[u8]) -> Then {
        let (is_client, id) = (self.is_client, self.numbers.get(&channel).copied());
        match (self.find(channel), id) {
            (Some(slot), _) if is_client => {
                slot.exit = Exit::heard(name, rest).or_else(|| slot.exit.take());
                Then::Decline
            }
            (Some(slot), Some(id)) => {
                let is_taken = slot.requests.len() < MOST_REQUESTS;
                let owed = want.then(|| slot.owed.owe((!is_taken).then_some(false)));
                if is_taken {
                    slot.requests.push_back(Asked { name: name.to_vec(), owed, rest: rest.to_vec() });
                    slot.wake(Waits::Request);
                }
                Then::Reply(id)
            }
            _ => Then::Decline,
        }
    }

    fn confirmed(&mut self, channel: u32) -> Then {
        match self.find(channel) {
            Some(slot) => {
                slot.number = Some(channel);
                if let Some(opened) = slot.opened.take() {
                    let _ = opened.send(Ok(()));
                }
                Then::Nothing
            }
            // nobody waits for it any more
            None => {
                self.numbers.remove(&channel);
                Then::Close(channel)
            }
        }
    }

    fn opened(&mut self, channel: u32, kind: &[u8], rest: &[u8]) -> Then {
        if !self.takes_channels {
            return Then::Decline;
        }
        if self.slots.len() + self.offers.len() >= self.most_channels {
            return Then::Refuse(channel);
        }
        self.offers.push_back(Opened { number: channel, kind: plain(kind), rest: rest.to_vec() });
        if let Some(acceptor) = self.acceptor.take() {
            acceptor.wake();
        }
        Then::Nothing
    }

    fn global(&mut self, name: &[u8], want: bool, rest: &[u8]) -> Then {
        let begins = name == b"tcpip-forward";
        let mut rest = Take(rest);
        let target = match (begins || name == b"cancel-tcpip-forward", rest.text(), rest.number()) {
            (true, Some(address), Some(port)) if self.takes_listens && self.listens.len() < MOST_LISTENS => {
                Some((plain(address.as_bytes()), port))
            }
            _ => None,
        };
        let owed = want.then(|| self.owed.owe(if target.is_some() { None } else { Some(None) }));
        if let Some((address, port)) = target {
            self.listens.push_back(Listens { begins, address, port, owed });
            if let Some(listener) = self.listener.take() {
                listener.wake();
            }
        }
        Then::ReplyGlobal
    }
}
