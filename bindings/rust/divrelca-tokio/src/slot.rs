//! What a connection has of one channel.

use crate::channel::Exit;
use crate::Result;
use std::collections::VecDeque;
use std::task::{Context, Waker};
use tokio::sync::oneshot;

/// Whom a slot wakes.
#[derive(Clone, Copy)]
pub(crate) enum Waits {
    Out,
    Err,
    Write,
    Request,
    Closed,
}

/// Answers that the peer is owed. They go in the order of its questions, whichever is answered first.
pub(crate) struct Owed<T> {
    next: u64,
    queue: VecDeque<(u64, Option<T>)>,
}

impl<T> Default for Owed<T> {
    fn default() -> Self {
        Owed { next: 0, queue: VecDeque::new() }
    }
}

impl<T> Owed<T> {
    /// Notes a question, with its answer where that is known, and answers its number.
    pub fn owe(&mut self, answer: Option<T>) -> u64 {
        self.next += 1;
        self.queue.push_back((self.next, answer));
        self.next
    }

    /// Sets the answer to a question.
    pub fn answer(&mut self, number: u64, answer: T) {
        if let Some(owed) = self.queue.iter_mut().find(|it| it.0 == number) {
            owed.1 = Some(answer);
        }
    }

    /// The next answer, where it is known.
    pub fn due(&mut self) -> Option<T> {
        let answer = self.queue.front_mut()?.1.take()?;
        self.queue.pop_front();
        Some(answer)
    }
}

/// A request of the peer on a channel. `owed` is the number of its answer, where one is wanted.
pub(crate) struct Asked {
    pub name: Vec<u8>,
    pub owed: Option<u64>,
    pub rest: Vec<u8>,
}

/// What the connection has of one channel, as long as somebody holds it.
#[derive(Default)]
pub(crate) struct Slot {
    /// The library's number; none before it is open, and once it is closed.
    pub number: Option<u32>,
    pub input: [VecDeque<u8>; 2],
    pub ended: bool,
    pub sent_eof: bool,
    pub closed: bool,
    /// Whether the peer's CLOSE came, and not the end of the connection.
    pub was_closed: bool,
    pub exit: Option<Exit>,
    pub requests: VecDeque<Asked>,
    pub owed: Owed<bool>,
    pub replies: VecDeque<oneshot::Sender<bool>>,
    pub opened: Option<oneshot::Sender<Result<()>>>,
    pub wakers: [Option<Waker>; 5],
}

impl Slot {
    pub fn wait(&mut self, who: Waits, cx: &mut Context<'_>) {
        let waker = &mut self.wakers[who as usize];
        if !matches!(waker, Some(it) if it.will_wake(cx.waker())) {
            *waker = Some(cx.waker().clone());
        }
    }

    pub fn wake(&mut self, who: Waits) {
        if let Some(waker) = self.wakers[who as usize].take() {
            waker.wake();
        }
    }

    /// Takes part no more: what came can still be read.
    pub fn shut(&mut self) {
        (self.number, self.closed) = (None, true);
        self.replies.clear();
        self.wakers.iter_mut().filter_map(Option::take).for_each(Waker::wake);
    }
}

#[cfg(test)]
mod tests {
    use super::Owed;

    #[test]
    fn answers_go_in_the_order_of_questions() {
        let mut owed = Owed::default();
        let (first, second) = (owed.owe(None), owed.owe(None));
        owed.answer(second, true);
        assert_eq!(owed.due(), None);
        owed.answer(first, false);
        owed.owe(Some(true));
        assert_eq!((owed.due(), owed.due(), owed.due(), owed.due()), (Some(false), Some(true), Some(true), None));
    }
}
