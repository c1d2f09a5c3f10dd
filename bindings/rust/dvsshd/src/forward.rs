//! Ports: connections that the client opens from here, and those that come to ports on which it asked to listen. These are of this host
//! alone, as without GatewayPorts of OpenSSH.

use crate::authorized::Rights;
use crate::log::say;
use divrelca_tokio::server::{Connection, Forwarded, Listen};
use divrelca_tokio::Offer;
use std::collections::HashMap;
use std::io;
use std::time::Duration;
use tokio::io::copy_bidirectional;
use tokio::net::{TcpListener, TcpStream};
use tokio::task::{AbortHandle, JoinSet};
use tokio::time::timeout;

const MOST_PORTS: usize = 32;
const CONNECT: Duration = Duration::from_secs(60);

/// Opens a connection for the client, where it may, and carries it.
pub async fn direct(offer: Offer, rights: Rights, who: String) {
    let target = match Forwarded::of(offer.rest()) {
        Some(target) if rights.may_open(&target.host, target.port) => target,
        Some(target) => {
            say(&format!("{who}: {} port {} may not be opened", target.host, target.port));
            return offer.refuse(1);
        }
        None => return offer.refuse(1),
    };
    let connects = TcpStream::connect((target.host.as_str(), target.port));
    let mut socket = match timeout(CONNECT, connects).await {
        Ok(Ok(socket)) => socket,
        _ => return offer.refuse(2),
    };
    if let Ok(channel) = offer.confirm() {
        let _ = copy_bidirectional(&mut socket, &mut channel.data()).await;
    }
}

/// The ports on which the client asked to listen. They are closed with this.
#[derive(Default)]
pub struct Ports {
    tasks: JoinSet<()>,
    open: HashMap<(String, u16), AbortHandle>,
}

impl Ports {
    /// Does what is asked for, where the client may.
    pub async fn hear(&mut self, asked: Listen, connection: &Connection, rights: &Rights) {
        let (address, port) = match asked.port() {
            Some(port) => (asked.address().to_owned(), port),
            None => return,
        };
        if !asked.begins() {
            if let Some(task) = self.open.remove(&(address, port)) {
                task.abort();
                asked.done(port);
            }
            return;
        }
        if !rights.may_listen(&address, port) || self.open.len() >= MOST_PORTS {
            return; // which refuses it
        }
        if let Ok((listener, port)) = bind(port).await {
            let task = self.tasks.spawn(listen(listener, address.clone(), port, connection.clone()));
            self.open.insert((address, port), task);
            asked.done(port);
        }
    }
}

async fn bind(port: u16) -> io::Result<(TcpListener, u16)> {
    let listener = TcpListener::bind(("127.0.0.1", port)).await?;
    let port = listener.local_addr()?.port();
    Ok((listener, port))
}

async fn listen(listener: TcpListener, host: String, port: u16, connection: Connection) {
    let mut carried = JoinSet::new(); // which ends with this task
    while let Ok((mut socket, peer)) = listener.accept().await {
        let from = Forwarded { host: host.clone(), port, origin: peer.ip().to_string(), origin_port: peer.port() };
        let connection = connection.clone();
        carried.spawn(async move {
            if let Ok(channel) = connection.forwarded(&from).await {
                let _ = copy_bidirectional(&mut socket, &mut channel.data()).await;
            }
        });
    }
}
