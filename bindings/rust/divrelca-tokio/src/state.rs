//! The state of a connection, which its handles and its driver share.

use crate::decide::{Decide, Question};
use crate::server::{lent, Lookup};
use crate::slot::{Slot, Waits};
use crate::table::{Table, Then};
use crate::{Error, Result};
use divrelca::{AsEither, Ask, End, Login, Material};
use std::collections::VecDeque;
use std::num::NonZeroU32;
use std::sync::{Mutex, MutexGuard, PoisonError};
use std::task::{Context, Poll, Waker};
use tokio::io::ReadBuf;
use tokio::sync::oneshot;

/// The window of each channel, which bounds what waits to be read there.
pub(crate) const WINDOW: u32 = 1 << 21;
pub(crate) const PACKET: u32 = 32768;
/// Bytes for the peer, past which nobody writes data; past twice as many nothing is read.
pub(crate) const MOST_WAITING: usize = 1 << 20;
// Bytes that are held back while the program decides, past which no more are read. A peer that goes is noticed until then.
const MOST_HELD: usize = 1 << 18;
// The room that a channel keeps for what comes.
const KEPT: usize = 1 << 16;

pub(crate) struct State {
    pub end: End<AsEither>,
    fresh: Material,
    pub table: Table,
    opens: VecDeque<(u64, &'static str, Vec<u8>)>,
    pub driver: Option<Waker>,
    pub lookup: Option<Lookup>,
    pub decide: Option<Decide>,
    // Bytes of the peer that are not taken before the program answers, and what it is asked.
    held: Vec<u8>,
    pub question: Option<Question>,
    pub over: Option<Error>,
    pub leaving: bool,
    pub is_alive: bool,
}

pub(crate) struct Link(Mutex<State>);

impl Link {
    pub fn new(state: State) -> Self {
        Link(Mutex::new(state))
    }

    pub fn lock(&self) -> MutexGuard<'_, State> {
        self.0.lock().unwrap_or_else(PoisonError::into_inner)
    }
}

impl State {
    pub fn new(mut end: End<AsEither>, table: Table, lookup: Option<Lookup>, decide: Option<Decide>) -> Result<Self> {
        if decide.is_some() {
            end.decide_later()?;
        }
        let (fresh, opens, held) = (Material::random()?, VecDeque::new(), Vec::new());
        let (driver, question, over) = (None, None, None);
        Ok(State { end, fresh, table, opens, driver, lookup, decide, held, question, over, leaving: false, is_alive: false })
    }

    /// Makes an ask at once, or where it is too early after those that wait.
    pub fn post(&mut self, ask: &Ask<'_>) -> Result<()> {
        if self.end.queued() == 0 {
            match self.end.ask(ask) {
                Err(error) if error.is_later() => {}
                done => return done.map(drop).map_err(Error::from),
            }
        }
        Ok(self.end.queue(ask)?)
    }

    /// After calls: does what waits, and lets the driver write.
    pub fn kick(&mut self) {
        if let Err(error) = self.work() {
            self.finish(error);
        }
        if let Some(driver) = self.driver.take() {
            driver.wake();
        }
    }

    /// Feeds the end, and does what waits as far as it can be done now.
    pub fn work(&mut self) -> Result<()> {
        if self.end.feed(&self.fresh) {
            self.fresh = Material::random()?;
        }
        if self.end.is_over() {
            return Ok(());
        }
        if self.end.rekey_due() {
            match self.end.ask(&Ask::Rekey) {
                Err(error) if !error.is_later() && !error.is_gone() => return Err(error.into()),
                _ => {}
            }
        }
        while self.end.queued() > 0 {
            match self.end.work() {
                Err(error) if error.is_later() => return Ok(()),
                Err(error) if !error.is_gone() => return Err(error.into()),
                _ => {}
            }
        }
        self.open_waiting();
        Ok(())
    }

    fn open_waiting(&mut self) {
        while let Some((id, kind, rest)) = self.opens.front() {
            let (id, ask) = (*id, Ask::Open { kind: kind.as_bytes(), window: WINDOW, max_packet: PACKET, rest });
            match self.end.ask(&ask) {
                Err(error) if error.is_later() => return,
                Ok(number) => self.table.numbers.extend(number.map(|it| (it, id))),
                Err(error) => {
                    if let Some(opened) = self.table.slots.get_mut(&id).and_then(|it| it.opened.take()) {
                        let _ = opened.send(Err(error.into()));
                    }
                }
            }
            self.opens.pop_front();
        }
    }

    /// Whether nothing waits that could still be sent.
    pub fn is_idle(&self) -> bool {
        self.end.queued() == 0 && self.opens.is_empty()
    }

    /// Why the connection is over, where it is.
    pub fn check(&self) -> Result<()> {
        self.over.clone().map_or(Ok(()), Err)
    }

    /// Opens a channel; the receiver hears of it.
    pub fn open(&mut self, kind: &'static str, rest: Vec<u8>) -> Result<(u64, oneshot::Receiver<Result<()>>)> {
        self.check()?;
        let (opened, hears) = oneshot::channel();
        let id = self.table.add(Slot { opened: Some(opened), ..Slot::default() });
        self.opens.push_back((id, kind, rest));
        self.kick();
        Ok((id, hears))
    }

    /// Takes a channel that the peer opened.
    pub fn confirm(&mut self, number: u32) -> Result<u64> {
        self.post(&Ask::Confirm { channel: number, window: WINDOW, max_packet: PACKET, rest: b"" })?;
        let id = self.table.add(Slot { number: Some(number), ..Slot::default() });
        self.table.numbers.insert(number, id);
        self.kick();
        Ok(id)
    }

    pub fn slot(&mut self, id: u64) -> Result<&mut Slot> {
        self.table.slots.get_mut(&id).ok_or(Error::ChannelClosed)
    }

    /// The number of a channel that takes part, or why it does not.
    pub fn number(&mut self, id: u64) -> Result<u32> {
        let number = self.slot(id)?.number;
        number.ok_or_else(|| self.over.clone().unwrap_or(Error::ChannelClosed))
    }

    /// Forgets a channel that nobody holds, and closes it. One that is not confirmed yet is closed then.
    pub fn forget(&mut self, id: u64) {
        self.opens.retain(|it| it.0 != id);
        if let Some(number) = self.table.slots.remove(&id).and_then(|it| it.number) {
            self.table.numbers.remove(&number);
            let _ = self.post(&Ask::Close { channel: number });
            self.kick();
        }
    }

    pub fn request(&mut self, id: u64, name: &str, want: bool, rest: &[u8]) -> Result<Option<oneshot::Receiver<bool>>> {
        let channel = self.number(id)?;
        self.post(&Ask::Request { channel, name: name.as_bytes(), want, rest })?;
        let hears = want.then(oneshot::channel).map(|(reply, hears)| {
            if let Some(slot) = self.table.slots.get_mut(&id) {
                slot.replies.push_back(reply);
            }
            hears
        });
        self.kick();
        Ok(hears)
    }

    /// Makes a global request, and hears of it where somebody waits.
    pub fn global(&mut self, name: &str, rest: &[u8], hears: Option<oneshot::Sender<Option<Vec<u8>>>>) -> Result<()> {
        self.check()?;
        self.post(&Ask::Global { name: name.as_bytes(), want: true, rest })?;
        self.table.globals.push_back(hears);
        self.kick();
        Ok(())
    }

    /// Sends the answers to the peer's requests on a channel that are known.
    pub fn reply(&mut self, id: u64) -> Result<()> {
        while let Some(success) = self.table.slots.get_mut(&id).and_then(|it| it.owed.due()) {
            if let Ok(channel) = self.number(id) {
                self.post(&Ask::Reply { channel, success })?;
            }
        }
        Ok(())
    }

    /// The same of global requests.
    pub fn reply_global(&mut self) -> Result<()> {
        while let Some(answer) = self.table.owed.due() {
            let (success, rest) = (answer.is_some(), answer.unwrap_or_default());
            self.post(&Ask::GlobalReply { success, rest: &rest })?;
        }
        Ok(())
    }

    /// Sends as much as windows take.
    pub fn poll_write(&mut self, id: u64, kind: Option<NonZeroU32>, body: &[u8], cx: &mut Context<'_>) -> Poll<Result<usize>> {
        let number = self.number(id)?;
        if self.slot(id)?.sent_eof {
            return Poll::Ready(Err(Error::ChannelClosed));
        }
        let mut sent = 0;
        while sent < body.len() && self.end.queued() == 0 && self.end.output().len() < MOST_WAITING {
            match self.end.send(number, kind, &body[sent..]) {
                Ok(0) => break,
                Ok(count) => sent += count,
                Err(error) if error.is_later() => break,
                Err(error) if error.is_gone() => return Poll::Ready(Err(Error::ChannelClosed)),
                Err(error) => return Poll::Ready(Err(error.into())),
            }
        }
        if sent > 0 {
            self.kick();
        }
        if sent > 0 || body.is_empty() {
            return Poll::Ready(Ok(sent));
        }
        self.slot(id)?.wait(Waits::Write, cx);
        Poll::Pending
    }

    /// Copies what came on a stream; nothing where no more comes, and `Pending` where nothing came yet.
    pub fn poll_read(&mut self, id: u64, stream: usize, into: &mut ReadBuf<'_>, cx: &mut Context<'_>) -> Poll<Result<()>> {
        let slot = self.slot(id)?;
        let (front, count) = (slot.input[stream].as_slices().0, into.remaining());
        let count = front.len().min(count);
        into.put_slice(&front[..count]);
        slot.input[stream].drain(..count);
        if count > 0 {
            if slot.input[stream].is_empty() && slot.input[stream].capacity() > KEPT {
                slot.input[stream] = VecDeque::new();
            }
            if let Some(number) = slot.number {
                let _ = self.end.consume(number, count);
                if self.end.queued() > 0 {
                    self.kick();
                }
            }
        } else if into.remaining() > 0 && !slot.ended {
            // a cut is no end of a file
            self.check()?;
            self.slot(id)?.wait(if stream == 0 { Waits::Out } else { Waits::Err }, cx);
            return Poll::Pending;
        }
        Poll::Ready(Ok(()))
    }

    pub fn leave(&mut self) {
        self.leaving = true;
        self.kick();
    }

    pub fn finish(&mut self, why: Error) {
        if self.over.is_none() {
            tracing::debug!(%why, "the connection is over");
            self.over = Some(why);
        }
        self.opens.clear();
        self.table.shut();
    }

    // Hears what the last take did, and asks for what comes of it.
    fn hear(&mut self) -> Result<()> {
        let then = self.table.hear(self.end.event())?;
        match then {
            Then::Nothing => {}
            Then::Decline => self.end.decline()?,
            Then::Consume(channel, count) => drop(self.end.consume(channel, count)),
            Then::Close(channel) => self.end.queue(&Ask::Close { channel })?,
            Then::Refuse(channel) => self.end.queue(&Ask::Refuse { channel, reason: 4 })?,
            Then::Service => self.end.queue(&Ask::Service)?,
            Then::Reply(id) => self.reply(id)?,
            Then::ReplyGlobal => self.reply_global()?,
            Then::LookUp(name) => self.look_up(&name)?,
        }
        Ok(())
    }

    fn look_up(&mut self, name: &[u8]) -> Result<()> {
        let found = match (&self.lookup, std::str::from_utf8(name)) {
            (Some(lookup), Ok(name)) if !name.is_empty() => lookup(name),
            _ => return Ok(()),
        };
        let logins: Vec<Login<'_>> = found.iter().map(lent).collect();
        match self.end.set_user(name, &logins) {
            Err(divrelca::Error::UserKnown) => Ok(()),
            done => Ok(done?),
        }
    }

    /// Whether so many bytes are held back that no more are read.
    pub fn holds_enough(&self) -> bool {
        self.held.len() >= MOST_HELD
    }

    /// Takes a piece of the peer's bytes, or puts it to those that are held back.
    pub fn take(&mut self, mut bytes: &[u8]) -> Result<()> {
        self.is_alive = true;
        if !self.held.is_empty() {
            self.held.extend_from_slice(bytes);
            return Ok(());
        }
        while !bytes.is_empty() {
            let used = self.end.take(bytes)?;
            if used == 0 {
                return self.ask_program(bytes);
            }
            bytes = bytes.get(used..).unwrap_or(&[]);
            self.hear()?;
            self.work()?;
        }
        Ok(())
    }

    // Holds bytes back until the program has answered what the end wants to know.
    fn ask_program(&mut self, bytes: &[u8]) -> Result<()> {
        self.question = self.end.wanted().and_then(|it| Question::of(&it));
        if let Some(Question::Signature { user, algorithm, key, text, .. }) = &mut self.question {
            *text = self.end.text_to_sign(user, algorithm.as_bytes(), key)?;
        }
        self.held = bytes.to_vec();
        if self.question.is_none() {
            return self.answer(false);
        }
        Ok(())
    }

    /// Tells the end the answer, and takes the bytes that were held back. An end that is over needs none.
    pub fn answer(&mut self, accepts: bool) -> Result<()> {
        match self.end.answer(accepts) {
            Err(divrelca::Error::NothingWanted) | Ok(()) => {}
            Err(error) => return Err(error.into()),
        }
        let held = std::mem::take(&mut self.held);
        if self.end.is_over() {
            return Ok(());
        }
        self.take(&held)
    }

    pub fn wake_writers(&mut self) {
        if self.end.queued() > 0 || self.end.output().len() >= MOST_WAITING {
            return;
        }
        for slot in self.table.slots.values_mut() {
            if matches!(slot.number, Some(it) if self.end.room(it) > 0) {
                slot.wake(Waits::Write);
            }
        }
    }
}
