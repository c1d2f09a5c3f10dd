//! Ports here that lead to ports there, ports there that lead here (RFC 4254, 7), and the user's agent.

use crate::log::say;
use crate::names::Forward;
use crate::socks;
use divrelca_tokio::client::{Connection, Forwarded};
use divrelca_tokio::Offer;
use std::ffi::OsString;
use std::io::{Error, ErrorKind, Result};
use tokio::io::{copy_bidirectional, AsyncWriteExt};
use tokio::net::{TcpListener, TcpStream, UnixStream};

/// Ports of the server, each with the host and port here to which it leads.
type Taken = Vec<(u16, (String, u16))>;

async fn bind(forward: &Forward) -> Result<TcpListener> {
    match forward.bind.as_str() {
        "*" => match TcpListener::bind(("::", forward.port)).await {
            Ok(listener) => Ok(listener),
            Err(_) => TcpListener::bind(("0.0.0.0", forward.port)).await,
        },
        "localhost" => TcpListener::bind(("127.0.0.1", forward.port)).await,
        address => TcpListener::bind((address, forward.port)).await,
    }
}

/// Listens on a port here; each connection there is carried over a channel of its own.
pub async fn listen(connection: Connection, forward: Forward) -> Result<()> {
    let listener = bind(&forward).await?;
    tokio::spawn(async move {
        while let Ok((socket, _)) = listener.accept().await {
            let (connection, to) = (connection.clone(), forward.to.clone());
            tokio::spawn(async move {
                if let Err(error) = carry(&connection, socket, to).await {
                    say(&format!("a forwarded connection: {error}"));
                }
            });
        }
    });
    Ok(())
}

async fn carry(connection: &Connection, mut socket: TcpStream, to: Option<(String, u16)>) -> Result<()> {
    let greeting = match &to {
        Some(_) => None,
        None => Some(socks::read(&mut socket).await?),
    };
    let (host, port) = match (to, &greeting) {
        (Some(to), _) => to,
        (None, Some(asked)) => (asked.host.clone(), asked.port),
        (None, None) => return Err(ErrorKind::InvalidInput.into()),
    };
    let opened = connection.direct(&host, port).await;
    if let Some(asked) = greeting {
        socket.write_all(asked.answer(opened.is_ok())).await?;
    }
    copy_bidirectional(&mut socket, &mut opened?.data()).await.map(drop)
}

/// Has the server listen on ports. Answers those on which it does, and what is to be said of the others.
pub async fn listen_there(connection: &Connection, forwards: &[Forward]) -> (Taken, Vec<String>) {
    let (mut failed, mut taken) = (Vec::new(), Vec::new());
    for forward in forwards {
        let address = if forward.bind == "*" { "" } else { &forward.bind };
        let target = match &forward.to {
            Some(target) => target.clone(),
            None => continue,
        };
        match connection.forward(address, forward.port).await {
            Ok(port) => {
                if forward.port == 0 {
                    say(&format!("port {port} of the server leads to {}:{}", target.0, target.1));
                }
                taken.push((port, target));
            }
            Err(error) => failed.push(format!("port {} of the server: {error}", forward.port)),
        }
    }
    (taken, failed)
}

/// Takes the channels that the server opens: connections to ports on which it listens for this end, and to the agent where that is
/// offered. All others are refused.
pub fn take_all(connection: &Connection, taken: Taken, agent: Option<OsString>) {
    if taken.is_empty() && agent.is_none() {
        return;
    }
    let connection = connection.clone();
    tokio::spawn(async move {
        while let Ok(offer) = connection.next_channel().await {
            match (offer.kind(), &agent) {
                ("auth-agent@openssh.com", Some(agent)) => drop(tokio::spawn(take_agent(offer, agent.clone()))),
                _ => drop(tokio::spawn(take(offer, taken.clone()))),
            }
        }
    });
}

async fn take_agent(offer: Offer, socket: OsString) {
    let mut agent = match UnixStream::connect(&socket).await {
        Ok(agent) => agent,
        Err(error) => {
            offer.refuse(2);
            return say(&format!("the agent at {}: {error}", socket.to_string_lossy()));
        }
    };
    if let Ok(channel) = offer.confirm() {
        let _ = copy_bidirectional(&mut agent, &mut channel.data()).await;
    }
}

async fn take(offer: Offer, taken: Taken) {
    let target = match (offer.kind(), Forwarded::of(offer.rest())) {
        ("forwarded-tcpip", Some(from)) => taken.into_iter().find(|it| it.0 == from.port).map(|it| it.1),
        _ => None,
    };
    let target = match target {
        Some(target) => target,
        None => return offer.refuse(1),
    };
    let outcome = match TcpStream::connect((target.0.as_str(), target.1)).await {
        Ok(mut socket) => match offer.confirm() {
            Ok(channel) => copy_bidirectional(&mut socket, &mut channel.data()).await.map(drop),
            Err(error) => Err(Error::from(error)),
        },
        Err(error) => {
            offer.refuse(2);
            Err(error)
        }
    };
    if let Err(error) = outcome {
        say(&format!("a connection to {}:{}: {error}", target.0, target.1));
    }
}
