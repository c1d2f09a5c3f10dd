//! A future made of a function, which the standard library has from Rust 1.64 on.

use std::future::Future;
use std::pin::Pin;
use std::task::{Context, Poll};

struct Polls<F>(F);

// the function is called, and never pinned
impl<F> Unpin for Polls<F> {}

impl<T, F: FnMut(&mut Context<'_>) -> Poll<T>> Future for Polls<F> {
    type Output = T;
    fn poll(mut self: Pin<&mut Self>, cx: &mut Context<'_>) -> Poll<T> {
        (self.0)(cx)
    }
}

pub(crate) fn poll_fn<T, F: FnMut(&mut Context<'_>) -> Poll<T>>(polls: F) -> impl Future<Output = T> + Unpin {
    Polls(polls)
}
