//! The task that drives a connection.

use crate::polls::poll_fn;
use crate::state::{Link, State, MOST_WAITING};
use crate::{Answer, Channel, Error, Result};
use divrelca::Ask;
use std::cell::Cell;
use std::future::Future;
use std::io;
use std::pin::Pin;
use std::sync::Arc;
use std::task::{Context, Poll};
use std::time::Duration;
use tokio::io::{AsyncRead, AsyncWrite, AsyncWriteExt, ReadBuf};
use tokio::sync::watch;
use tokio::time::{interval_at, sleep, timeout, Instant, MissedTickBehavior, Sleep};

const READ: usize = 1 << 16;

thread_local! {
    // what a read goes to, and is taken from before the next one: an idle connection needs none
    static ROOM: Cell<Vec<u8>> = const { Cell::new(Vec::new()) };
}

// How long asks that an exchange of keys holds up, and then the last bytes, may take where the connection is closed.
const LAST_ASKS: Duration = Duration::from_secs(2);
const LAST_WORDS: Duration = Duration::from_secs(5);

/// How often a silent peer is asked for a sign of life, and how many times in vain.
#[derive(Clone, Copy, Debug, PartialEq, Eq)]
pub struct Keepalive {
    /// How long the peer may be silent.
    pub every: Duration,
    /// How many questions may stay without an answer.
    pub most: u32,
}

/// Holds a connection: where the last one goes, the connection ends.
pub(crate) struct Handle {
    pub link: Arc<Link>,
    done: watch::Receiver<bool>,
}

impl std::fmt::Debug for Handle {
    fn fmt(&self, f: &mut std::fmt::Formatter<'_>) -> std::fmt::Result {
        f.write_str("Handle")
    }
}

impl Handle {
    /// Opens a channel, and waits until the peer confirms it.
    pub async fn open(self: &Arc<Self>, kind: &'static str, rest: Vec<u8>) -> Result<Channel> {
        let (id, opened) = self.link.lock().open(kind, rest)?;
        let channel = Channel::new(self.clone(), id);
        opened.await.map_err(|_| self.why_over())??;
        Ok(channel)
    }

    /// Ends the connection, and waits until the last bytes are written.
    pub async fn close(&self) {
        self.link.lock().leave();
        self.over().await;
    }

    /// Waits until the connection is over, and the last bytes are written.
    pub async fn over(&self) {
        let mut done = self.done.clone();
        loop {
            let is_done = *done.borrow();
            if is_done || done.changed().await.is_err() {
                return;
            }
        }
    }

    pub fn why_over(&self) -> Error {
        self.link.lock().over.clone().unwrap_or(Error::Lost)
    }
}

impl Drop for Handle {
    fn drop(&mut self) {
        self.link.lock().leave();
    }
}

// An end without a word comes as the end of what is read, or as one of these.
fn of_socket(error: io::Error) -> Error {
    match error.kind() {
        io::ErrorKind::ConnectionReset | io::ErrorKind::ConnectionAborted | io::ErrorKind::BrokenPipe => Error::Lost,
        _ => Error::from(error),
    }
}

struct Driver<S> {
    link: Arc<Link>,
    socket: S,
    leaves: Option<Pin<Box<Sleep>>>,
    deciding: Option<Answer>,
}

impl<S: AsyncRead + AsyncWrite + Unpin> Driver<S> {
    // Carries bytes both ways as long as some go; ready where the connection is over.
    fn poll(&mut self, cx: &mut Context<'_>) -> Poll<Result<()>> {
        for _ in 0..16 {
            let link = self.link.clone();
            self.decide(&link, cx)?;
            let mut state = link.lock();
            if !matches!(&state.driver, Some(it) if it.will_wake(cx.waker())) {
                state.driver = Some(cx.waker().clone());
            }
            state.work()?;
            if state.leaving && self.is_time_to_leave(&state, cx) {
                let _ = state.end.ask(&Ask::Disconnect { description: b"done" });
                return Poll::Ready(Err(Error::Closed));
            }
            state.check()?;
            let wrote = self.write(&mut state, cx)?;
            state.wake_writers();
            if !(self.read(&mut state, cx)? || wrote) {
                return Poll::Pending;
            }
        }
        cx.waker().wake_by_ref();
        Poll::Pending
    }

    // Has the program answer what the end wants to know. It is not called while the state is locked, since it may use the connection.
    fn decide(&mut self, link: &Link, cx: &mut Context<'_>) -> Result<()> {
        let asked = {
            let mut state = link.lock();
            state.question.take().zip(state.decide.clone())
        };
        if let Some((question, decide)) = asked {
            self.deciding = Some(decide(question));
        }
        let deciding = match &mut self.deciding {
            Some(deciding) => deciding,
            None => return Ok(()),
        };
        let answer = deciding.as_mut().poll(cx);
        let mut state = link.lock();
        state.is_alive = true;
        if let Poll::Ready(accepts) = answer {
            self.deciding = None;
            state.answer(accepts)?;
        }
        Ok(())
    }

    // Whether all that was asked for is sent, or takes too long.
    fn is_time_to_leave(&mut self, state: &State, cx: &mut Context<'_>) -> bool {
        if state.is_idle() || state.end.is_over() {
            return true;
        }
        let leaves = self.leaves.get_or_insert_with(|| Box::pin(sleep(LAST_ASKS)));
        leaves.as_mut().poll(cx).is_ready()
    }

    fn write(&mut self, state: &mut State, cx: &mut Context<'_>) -> Result<bool> {
        let mut moved = false;
        while !state.end.output().is_empty() {
            match Pin::new(&mut self.socket).poll_write(cx, state.end.output()).map_err(of_socket)? {
                Poll::Ready(0) => return Err(Error::Lost),
                Poll::Ready(count) => state.end.written(count),
                Poll::Pending => break,
            }
            moved = true;
        }
        Ok(moved)
    }

    fn read(&mut self, state: &mut State, cx: &mut Context<'_>) -> Result<bool> {
        if state.holds_enough() || state.end.output().len() >= 2 * MOST_WAITING {
            return Ok(false);
        }
        let mut room = ROOM.with(Cell::take);
        room.resize(READ, 0);
        let moved = self.read_into(&mut room, state, cx);
        ROOM.with(|it| it.set(room));
        moved
    }

    fn read_into(&mut self, room: &mut [u8], state: &mut State, cx: &mut Context<'_>) -> Result<bool> {
        let mut buffer = ReadBuf::new(room);
        if Pin::new(&mut self.socket).poll_read(cx, &mut buffer).map_err(of_socket)?.is_pending() {
            return Ok(false);
        }
        if buffer.filled().is_empty() {
            return Err(Error::Lost);
        }
        state.take(buffer.filled())?;
        Ok(true)
    }

    async fn last_words(&mut self) -> io::Result<()> {
        let rest = self.link.lock().end.output().to_vec();
        self.socket.write_all(&rest).await?;
        self.socket.shutdown().await
    }

    async fn run(mut self, keepalive: Option<Keepalive>, done: watch::Sender<bool>) {
        let every = keepalive.map_or(Duration::from_secs(1 << 30), |it| it.every);
        let mut ticks = interval_at(Instant::now() + every, every);
        ticks.set_missed_tick_behavior(MissedTickBehavior::Delay);
        let mut unanswered = 0;
        let why = loop {
            tokio::select! {
                ended = poll_fn(|cx| self.poll(cx)) => break ended.err().unwrap_or(Error::Lost),
                _ = ticks.tick() => {}
            }
            let mut state = self.link.lock();
            unanswered = if std::mem::take(&mut state.is_alive) { 0 } else { unanswered + 1 };
            if matches!(keepalive, Some(it) if unanswered > it.most) {
                break Error::Silent;
            }
            if unanswered > 0 {
                let _ = state.global("keepalive@openssh.com", b"", None);
            }
        };
        self.link.lock().finish(why);
        let _ = timeout(LAST_WORDS, self.last_words()).await;
        let _ = done.send(true);
    }
}

/// Starts the driver of a connection.
pub(crate) fn start<S>(socket: S, state: State, keepalive: Option<Keepalive>) -> Handle
where
    S: AsyncRead + AsyncWrite + Unpin + Send + 'static,
{
    let link = Arc::new(Link::new(state));
    let (ended, done) = watch::channel(false);
    tokio::spawn(Driver { link: link.clone(), socket, leaves: None, deciding: None }.run(keepalive, ended));
    Handle { link, done }
}
