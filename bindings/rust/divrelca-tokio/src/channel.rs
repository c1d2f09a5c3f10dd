//! A channel, and its streams.

use crate::driver::Handle;
use crate::polls::poll_fn;
use crate::slot::{Asked, Waits};
use crate::state::State;
use crate::{plain, Error, Result};
use divrelca::wire::{Put, Take};
use divrelca::Ask;
use std::fmt;
use std::io;
use std::num::NonZeroU32;
use std::pin::Pin;
use std::sync::{Arc, MutexGuard};
use std::task::{Context, Poll};
use tokio::io::{AsyncRead, AsyncWrite, ReadBuf};

/// How a command ended.
#[derive(Clone, Debug, PartialEq, Eq)]
#[non_exhaustive]
pub enum Exit {
    /// By a status.
    Status(u32),
    /// By the signal of this name, without SIG.
    Signal(String),
}

impl Exit {
    // As a channel's request tells it.
    pub(crate) fn heard(name: &[u8], rest: &[u8]) -> Option<Exit> {
        let mut rest = Take(rest);
        match name {
            b"exit-status" => rest.number().map(Exit::Status),
            b"exit-signal" => rest.string().map(|it| Exit::Signal(plain(it))),
            _ => None,
        }
    }
}

struct Inner {
    handle: Arc<Handle>,
    id: u64,
}

impl Drop for Inner {
    fn drop(&mut self) {
        self.handle.link.lock().forget(self.id);
    }
}

/// A channel. Clones share it; with the last of them, and of its streams, it is closed. A stream, or a kind of waiting, is for
/// one task at a time.
#[derive(Clone)]
pub struct Channel(Arc<Inner>);

/// One of the two streams of a channel: data, and extended data of kind 1, which is standard error.
#[derive(Clone)]
pub struct Stream {
    channel: Channel,
    is_error: bool,
}

impl Channel {
    pub(crate) fn new(handle: Arc<Handle>, id: u64) -> Self {
        Channel(Arc::new(Inner { handle, id }))
    }

    pub(crate) fn lock(&self) -> (MutexGuard<'_, State>, u64) {
        (self.0.handle.link.lock(), self.0.id)
    }

    /// The stream of data. Its shutdown says that no more is sent, on either stream.
    pub fn data(&self) -> Stream {
        Stream { channel: self.clone(), is_error: false }
    }

    /// The stream of standard error. What comes there takes window until it is read.
    pub fn error(&self) -> Stream {
        Stream { channel: self.clone(), is_error: true }
    }

    /// Makes a request, and hears whether the peer did it.
    ///
    /// # Errors
    /// Where the channel or the connection is over.
    pub async fn request(&self, name: &str, rest: &[u8]) -> Result<bool> {
        let hears = {
            let (mut state, id) = self.lock();
            state.request(id, name, true, rest)?
        };
        match hears {
            Some(hears) => match hears.await {
                Ok(success) => Ok(success),
                Err(_) => Err(self.lock().0.over.clone().unwrap_or(Error::ChannelClosed)),
            },
            None => Ok(false),
        }
    }

    /// Makes a request that is not answered.
    ///
    /// # Errors
    /// Where the channel or the connection is over.
    pub fn tell(&self, name: &str, rest: &[u8]) -> Result<()> {
        let (mut state, id) = self.lock();
        state.request(id, name, false, rest).map(drop)
    }

    /// The peer's next request; none where the channel is closed.
    pub async fn next_request(&self) -> Option<Request> {
        let asked = poll_fn(|cx| {
            let (mut state, id) = self.lock();
            let slot = match state.slot(id) {
                Ok(slot) => slot,
                Err(_) => return Poll::Ready(None),
            };
            match slot.requests.pop_front() {
                None if !slot.closed => {
                    slot.wait(Waits::Request, cx);
                    Poll::Pending
                }
                asked => Poll::Ready(asked),
            }
        });
        asked.await.map(|asked| Request { channel: self.clone(), asked })
    }

    /// Waits until the peer closes the channel, and tells how its command ended, if it said so.
    ///
    /// # Errors
    /// Where the connection is cut before that.
    pub async fn closed(&self) -> Result<Option<Exit>> {
        poll_fn(|cx| {
            let (mut state, id) = self.lock();
            let slot = state.slot(id)?;
            if !slot.closed {
                slot.wait(Waits::Closed, cx);
                return Poll::Pending;
            }
            let (exit, was_closed) = (slot.exit.clone(), slot.was_closed);
            // numbers are given up by CLOSE alone; where the connection was cut before, nothing is sure
            Poll::Ready(match &state.over {
                Some(over) if !was_closed => Err(over.clone()),
                _ => Ok(exit),
            })
        })
        .await
    }

    /// Says that no more data is sent.
    ///
    /// # Errors
    /// Where the channel or the connection is over.
    pub fn end(&self) -> Result<()> {
        let (mut state, id) = self.lock();
        let channel = state.number(id)?;
        if !std::mem::replace(&mut state.slot(id)?.sent_eof, true) {
            state.post(&Ask::Eof { channel })?;
            state.kick();
        }
        Ok(())
    }

    /// Closes the channel at once. What came can still be read.
    pub fn close(&self) {
        let (mut state, id) = self.lock();
        if let Ok(channel) = state.number(id) {
            let _ = state.slot(id).map(|it| it.sent_eof = true);
            let _ = state.post(&Ask::Close { channel });
            state.kick();
        }
    }

    /// Server: tells how the command ended, and closes the channel.
    ///
    /// # Errors
    /// Where the channel or the connection is over.
    pub fn exit(&self, exit: &Exit) -> Result<()> {
        match exit {
            Exit::Status(status) => self.tell("exit-status", &Put::new().number(*status).done())?,
            Exit::Signal(name) => {
                self.tell("exit-signal", &Put::new().string(name).flag(false).string("").string("").done())?;
            }
        }
        self.close();
        Ok(())
    }
}

impl AsyncRead for Stream {
    fn poll_read(self: Pin<&mut Self>, cx: &mut Context<'_>, into: &mut ReadBuf<'_>) -> Poll<io::Result<()>> {
        let (mut state, id) = self.channel.lock();
        state.poll_read(id, self.is_error.into(), into, cx).map_err(io::Error::from)
    }
}

impl AsyncWrite for Stream {
    fn poll_write(self: Pin<&mut Self>, cx: &mut Context<'_>, body: &[u8]) -> Poll<io::Result<usize>> {
        let (mut state, id) = self.channel.lock();
        state.poll_write(id, NonZeroU32::new(self.is_error.into()), body, cx).map_err(io::Error::from)
    }

    // What is written is the connection's: its driver writes it.
    fn poll_flush(self: Pin<&mut Self>, _: &mut Context<'_>) -> Poll<io::Result<()>> {
        Poll::Ready(Ok(()))
    }

    fn poll_shutdown(self: Pin<&mut Self>, _: &mut Context<'_>) -> Poll<io::Result<()>> {
        Poll::Ready(self.channel.end().map_err(io::Error::from))
    }
}

impl fmt::Debug for Channel {
    fn fmt(&self, f: &mut fmt::Formatter<'_>) -> fmt::Result {
        f.debug_tuple("Channel").field(&self.0.id).finish()
    }
}

impl fmt::Debug for Stream {
    fn fmt(&self, f: &mut fmt::Formatter<'_>) -> fmt::Result {
        f.debug_struct("Stream").field("channel", &self.channel).field("is_error", &self.is_error).finish()
    }
}

/// A request of the peer on a channel. One that is dropped is refused. Answers go in the order of the requests, whichever is answered
/// first.
pub struct Request {
    channel: Channel,
    asked: Asked,
}

impl fmt::Debug for Request {
    fn fmt(&self, f: &mut fmt::Formatter<'_>) -> fmt::Result {
        f.debug_tuple("Request").field(&plain(&self.asked.name)).finish()
    }
}

impl Request {
    /// As "exec".
    pub fn name(&self) -> &[u8] {
        &self.asked.name
    }

    /// What the request holds besides.
    pub fn rest(&self) -> &[u8] {
        &self.asked.rest
    }

    /// Answers, if the peer wants that.
    pub fn answer(mut self, success: bool) {
        self.send(success);
    }

    fn send(&mut self, success: bool) {
        if let Some(owed) = self.asked.owed.take() {
            let (mut state, id) = self.channel.lock();
            if let Ok(slot) = state.slot(id) {
                slot.owed.answer(owed, success);
                let _ = state.reply(id);
                state.kick();
            }
        }
    }
}

impl Drop for Request {
    fn drop(&mut self) {
        self.send(false);
    }
}
