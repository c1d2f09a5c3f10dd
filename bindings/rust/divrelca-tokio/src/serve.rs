//! A listener, and the limits of those who are not let in yet.

use crate::accepted::Accepted;
use crate::server::{accept, Config, Connection, Rejected};
use crate::Error;
use std::future::Future;
use std::io;
use std::net::{IpAddr, SocketAddr};
use std::pin::Pin;
use std::sync::{Arc, Mutex, PoisonError};
use std::time::{Duration, Instant};
use tokio::net::{TcpListener, TcpStream};
use tokio::sync::{oneshot, Semaphore};

/// How many connections there may be. Those on which nobody is let in yet are limited as by MaxStartups of OpenSSH, but that it is not the
/// new one that goes: the oldest does, so that silent ones shut nobody out.
#[derive(Clone, Copy, Debug, PartialEq, Eq)]
#[non_exhaustive]
pub struct Limits {
    /// From so many on, each new one ends the oldest with a chance, if that has waited for `patience`.
    pub begin: usize,
    /// This chance, of 100, at `begin`. It grows to 100 at `full`.
    pub rate: usize,
    /// From so many on, each new one ends the oldest.
    pub full: usize,
    /// Of one address, from so many on, each new one ends the oldest of that address.
    pub of_address: usize,
    /// How long one may wait before chance ends it.
    pub patience: Duration,
    /// Connections on which somebody is let in.
    pub connections: usize,
}

impl Default for Limits {
    fn default() -> Self {
        Limits { begin: 10, rate: 30, full: 100, of_address: 64, patience: Duration::from_secs(10), connections: 1000 }
    }
}

struct Waiting {
    number: u64,
    address: IpAddr,
    since: Instant,
    // the connection ends where this is dropped
    _stays: oneshot::Sender<()>,
}

impl Limits {
    // Which of those that wait, the oldest first, has to go for a new one of this address. `chance` is from 0 to 99.
    fn goes(&self, waiting: &[Waiting], address: IpAddr, now: Instant, chance: usize) -> Option<usize> {
        if waiting.iter().filter(|it| it.address == address).count() >= self.of_address {
            return waiting.iter().position(|it| it.address == address);
        }
        let count = waiting.len();
        if count < self.begin {
            return None;
        }
        if count >= self.full {
            return Some(0);
        }
        let rate = self.rate + (100 - self.rate.min(100)) * (count - self.begin) / (self.full - self.begin);
        let is_old = now.saturating_duration_since(waiting.first()?.since) >= self.patience;
        (is_old && chance < rate).then_some(0)
    }
}

/// What comes of `Handler::serve`: `Box::pin(async move { .. })`.
pub type Served<'a> = Pin<Box<dyn Future<Output = ()> + Send + 'a>>;

/// What `serve` does with connections.
pub trait Handler: Send + Sync + 'static {
    /// What the server for this peer is made of.
    fn config(&self, peer: SocketAddr) -> Arc<Config>;

    /// Serves a connection on which somebody is let in, to its end.
    fn serve(&self, connection: Connection, here: SocketAddr, peer: SocketAddr) -> Served<'_>;

    /// Hears of a connection on which nobody was let in.
    fn rejected(&self, _peer: SocketAddr, _why: &Rejected) {}
}

// What all connections of a listener share.
struct Shared<H> {
    handler: H,
    limits: Limits,
    waiting: Mutex<Vec<Waiting>>,
    places: Semaphore,
}

/// Serves all connections of a listener, each in a task, within the limits.
///
/// # Errors
/// Where there are no random bytes.
pub async fn serve<H: Handler>(listener: TcpListener, limits: Limits, handler: H) -> io::Result<()> {
    let (waiting, places) = (Mutex::new(Vec::new()), Semaphore::new(limits.connections));
    let shared = Arc::new(Shared { handler, limits, waiting, places });
    let mut number = 0;
    loop {
        let (socket, peer) = match listener.accept().await {
            Ok(accepted) => accepted,
            // no descriptors, or a peer that is gone already
            Err(_) => {
                tokio::time::sleep(Duration::from_millis(100)).await;
                continue;
            }
        };
        number += 1;
        let goes = shared.begins(number, peer.ip())?;
        tokio::spawn(shared.clone().serve_one(socket, peer, number, goes));
    }
}

impl<H: Handler> Shared<H> {
    fn begins(&self, number: u64, address: IpAddr) -> io::Result<oneshot::Receiver<()>> {
        let mut chance = [0; 2];
        getrandom::getrandom(&mut chance)?;
        let (stays, goes) = oneshot::channel();
        let mut waiting = self.waiting.lock().unwrap_or_else(PoisonError::into_inner);
        let now = Instant::now();
        if let Some(at) = self.limits.goes(&waiting, address, now, usize::from(u16::from_be_bytes(chance)) % 100) {
            waiting.remove(at);
        }
        waiting.push(Waiting { number, address, since: now, _stays: stays });
        Ok(goes)
    }

    async fn serve_one(self: Arc<Self>, socket: TcpStream, peer: SocketAddr, number: u64, goes: oneshot::Receiver<()>) {
        let here = match socket.local_addr() {
            Ok(here) => here,
            Err(_) => return,
        };
        let config = self.handler.config(peer);
        let accepted = tokio::select! {
            accepted = accept(Accepted::new(socket), &config) => accepted,
            _ = goes => Err(Error::TooMany.into()),
        };
        self.waiting.lock().unwrap_or_else(PoisonError::into_inner).retain(|it| it.number != number);
        match (accepted, self.places.try_acquire()) {
            (Ok(connection), Ok(_place)) => self.handler.serve(connection, here, peer).await,
            (Ok(_), Err(_)) => self.handler.rejected(peer, &Error::TooMany.into()),
            (Err(why), _) => self.handler.rejected(peer, &why),
        }
    }
}

#[cfg(test)]
mod tests {
    use super::*;

    fn waiting(addresses: &[u8], age: Duration) -> Vec<Waiting> {
        let since = Instant::now().checked_sub(age).unwrap();
        let one = |(number, it): (usize, &u8)| Waiting {
            number: number as u64,
            address: IpAddr::from([10, 0, 0, *it]),
            since,
            _stays: oneshot::channel().0,
        };
        addresses.iter().enumerate().map(one).collect()
    }

    #[test]
    fn the_oldest_goes() {
        let (limits, now) = (Limits::default(), Instant::now());
        let (new, old) = (Duration::ZERO, Duration::from_secs(60));
        let peer = IpAddr::from([10, 0, 0, 9]);
        assert_eq!(limits.goes(&waiting(&[1; 9], old), peer, now, 0), None);
        assert_eq!(limits.goes(&waiting(&[1; 10], old), peer, now, 29), Some(0));
        assert_eq!(limits.goes(&waiting(&[1; 10], old), peer, now, 30), None);
        assert_eq!(limits.goes(&waiting(&[1; 55], old), peer, now, 64), Some(0));
        assert_eq!(limits.goes(&waiting(&[1; 55], old), peer, now, 65), None);
        assert_eq!(limits.goes(&waiting(&[1; 99], new), peer, now, 0), None);
        assert_eq!(limits.goes(&waiting(&[1; 100], new), peer, now, 99), Some(0));
    }

    #[test]
    fn an_address_has_a_limit_of_its_own() {
        let (mut all, now) = (vec![1], Instant::now());
        all.extend([9; 64]);
        let waiting = waiting(&all, Duration::ZERO);
        assert_eq!(Limits::default().goes(&waiting, IpAddr::from([10, 0, 0, 9]), now, 99), Some(1));
        assert_eq!(Limits::default().goes(&waiting, IpAddr::from([10, 0, 0, 1]), now, 99), None);
    }
}
