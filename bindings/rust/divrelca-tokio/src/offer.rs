//! Channels that the peer opens.

use crate::driver::Handle;
use crate::polls::poll_fn;
use crate::table::Opened;
use crate::{Channel, Error, Result};
use divrelca::Ask;
use std::fmt;
use std::sync::Arc;
use std::task::Poll;

/// A channel that the peer opens. One that is dropped is refused.
pub struct Offer {
    handle: Arc<Handle>,
    opened: Opened,
    is_answered: bool,
}

impl fmt::Debug for Offer {
    fn fmt(&self, f: &mut fmt::Formatter<'_>) -> fmt::Result {
        f.debug_tuple("Offer").field(&self.opened.kind).finish()
    }
}

impl Offer {
    // The next one of a connection.
    pub(crate) async fn next(handle: &Arc<Handle>) -> Result<Offer> {
        let opened = poll_fn(|cx| {
            let mut state = handle.link.lock();
            if let Some(opened) = state.table.offers.pop_front() {
                return Poll::Ready(Ok::<_, Error>(opened));
            }
            state.check()?;
            state.table.acceptor = Some(cx.waker().clone());
            Poll::Pending
        });
        Ok(Offer { handle: handle.clone(), opened: opened.await?, is_answered: false })
    }

    /// As "session".
    pub fn kind(&self) -> &str {
        &self.opened.kind
    }

    /// What the peer said besides.
    pub fn rest(&self) -> &[u8] {
        &self.opened.rest
    }

    /// Takes it.
    ///
    /// # Errors
    /// Where the connection is over.
    pub fn confirm(mut self) -> Result<Channel> {
        self.is_answered = true;
        let id = self.handle.link.lock().confirm(self.opened.number)?;
        Ok(Channel::new(self.handle.clone(), id))
    }

    /// Refuses it, by a reason of RFC 4254, 5.1: 1 it is prohibited, 2 no connection, 3 an unknown kind, 4 a shortage.
    pub fn refuse(mut self, reason: u32) {
        self.send_refusal(reason);
    }

    fn send_refusal(&mut self, reason: u32) {
        if !std::mem::replace(&mut self.is_answered, true) {
            let mut state = self.handle.link.lock();
            let _ = state.post(&Ask::Refuse { channel: self.opened.number, reason });
            state.kick();
        }
    }
}

impl Drop for Offer {
    fn drop(&mut self) {
        self.send_refusal(3);
    }
}
