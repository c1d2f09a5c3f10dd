//! A client and a server in one process.

use divrelca_tokio::keys::public_key;
use divrelca_tokio::server::{accept, Config as ServerConfig, Connection as Served, Credential, Forwarded, Rejected, Shown};
use divrelca_tokio::{client, Error, Exit};
use std::sync::Arc;
use std::time::Duration;
use tokio::io::{copy, duplex, AsyncReadExt, AsyncWriteExt};
use tokio::time::timeout;

const HOST: [u8; 32] = [7; 32];

// Echoes what comes, and ends with status 3; "yes" writes for ever, and "late" is not answered for a while.
async fn serve(connection: Served) {
    while let Ok(offer) = connection.next_channel().await {
        let channel = match offer.confirm() {
            Ok(channel) => channel,
            Err(_) => return,
        };
        tokio::spawn(async move {
            let request = match channel.next_request().await {
                Some(request) => request,
                None => return,
            };
            let is_yes = request.rest().ends_with(b"yes");
            if request.rest().ends_with(b"late") {
                tokio::time::sleep(Duration::from_millis(200)).await;
            }
            request.answer(true);
            let mut data = channel.data();
            while is_yes && data.write_all(&[b'y'; 30000]).await.is_ok() {}
            let _ = copy(&mut channel.data(), &mut data).await;
            let _ = channel.error().write_all(b"to stderr").await;
            let _ = channel.exit(&Exit::Status(3));
        });
    }
}

fn by_password(channels: usize) -> ServerConfig {
    let mut config = ServerConfig::new(HOST);
    config.users = vec![("me".into(), Credential::password("word"))];
    config.channels = channels;
    config
}

fn trusts(seed: [u8; 32]) -> client::Config {
    client::Config::new([public_key(&seed)])
}

async fn connected_by(config: ServerConfig, trusts: client::Config, word: &str) -> Result<client::Connection, Error> {
    let (here, there) = duplex(5000);
    tokio::spawn(async move {
        if let Ok(connection) = accept(there, &config).await {
            serve(connection).await;
        }
    });
    client::connect(here, &trusts, "me", Some(word)).await
}

async fn connected(word: &str, channels: usize) -> Result<client::Connection, Error> {
    connected_by(by_password(channels), trusts(HOST), word).await
}

// Both ends of a connection that is let in.
async fn both(config: ServerConfig) -> (client::Connection, Served) {
    let (here, there) = duplex(5000);
    let server = tokio::spawn(async move { accept(there, &config).await });
    let connection = client::connect(here, &trusts(HOST), "me", Some("word")).await.unwrap();
    (connection, server.await.unwrap().unwrap())
}

#[tokio::test]
async fn echoes_more_than_a_window() {
    let connection = connected("word", 10).await.unwrap();
    let session = connection.session().await.unwrap();
    session.exec("echo").await.unwrap();
    let sent: Vec<u8> = (0..5_000_000u32).map(|it| ((it * 7) >> 3) as u8).collect();
    let mut up = session.data();
    let writes = async {
        up.write_all(&sent).await.unwrap();
        up.shutdown().await.unwrap();
    };
    let (mut came, mut error) = (Vec::new(), String::new());
    let (mut down, mut errors) = (session.data(), session.error());
    tokio::join!(writes, async { down.read_to_end(&mut came).await.unwrap() }, async { errors.read_to_string(&mut error).await.unwrap() });
    assert!(came == sent && error == "to stderr");
    assert_eq!(session.wait().await.unwrap(), Some(Exit::Status(3)));
}

#[tokio::test]
async fn logins_that_fail() {
    assert!(matches!(connected("other", 10).await, Err(Error::NotLetIn(methods)) if methods == "password"));
    let outcome = connected_by(by_password(10), trusts([8; 32]), "word").await;
    assert!(matches!(outcome, Err(Error::Refused(name)) if name == "BadHost"));
    let mut two = trusts([8; 32]);
    two.host_keys.push(public_key(&HOST));
    assert!(connected_by(by_password(10), two, "word").await.is_ok());
}

#[tokio::test]
async fn a_server_hears_who_came_and_by_what() {
    let (here, there) = duplex(5000);
    let server = tokio::spawn(async move { accept(there, &by_password(10)).await });
    assert!(client::connect(here, &trusts(HOST), "you", Some("x")).await.is_err());
    let Rejected { tried, .. } = server.await.unwrap().unwrap_err();
    assert_eq!(tried.len(), 1);
    assert_eq!((&tried[0].user[..], &tried[0].shown), (&b"you"[..], &Shown::Password));
    let (_client, server) = both(by_password(10)).await;
    assert_eq!((server.user(), server.shown()), ("me", &Shown::Password));
}

#[tokio::test]
async fn users_are_looked_up() {
    let mut config = ServerConfig::new(HOST);
    let key = public_key(&[5; 32]);
    config.lookup = Some(Arc::new(move |name| if name == "me" { vec![Credential::Key(key)] } else { Vec::new() }));
    let (here, there) = duplex(5000);
    let server = tokio::spawn(async move { accept(there, &config).await });
    let mut trusts = trusts(HOST);
    trusts.user_seed = Some([5; 32].into());
    let _client = client::connect(here, &trusts, "me", None).await.unwrap();
    assert_eq!(server.await.unwrap().unwrap().shown(), &Shown::Key(key));
}

// A place is free once the server has let the channel before go.
async fn open(connection: &client::Connection) -> client::Session {
    loop {
        match connection.session().await {
            Ok(session) => return session,
            Err(Error::NoChannel { reason: 4, .. }) => tokio::time::sleep(Duration::from_millis(5)).await,
            Err(error) => panic!("{error}"),
        }
    }
}

#[tokio::test]
async fn dropped_handles_close_their_channels() {
    let connection = connected("word", 3).await.unwrap();
    for _ in 0..10 {
        let session = open(&connection).await;
        session.exec("yes").await.unwrap();
        let mut some = [0; 100];
        session.data().read_exact(&mut some).await.unwrap();
        drop(session);
        // an exec that is cancelled, and an open that is
        let session = open(&connection).await;
        assert!(timeout(Duration::from_millis(1), session.exec("late")).await.is_err());
        drop(session);
        let _ = timeout(Duration::from_micros(1), connection.session()).await;
    }
    let session = open(&connection).await;
    session.exec("echo").await.unwrap();
    session.end().unwrap();
    assert_eq!(session.wait().await.unwrap(), Some(Exit::Status(3)));
}

#[tokio::test]
async fn channels_are_limited() {
    let connection = connected("word", 3).await.unwrap();
    let mut held = Vec::new();
    for _ in 0..3 {
        held.push(connection.session().await.unwrap());
    }
    assert!(matches!(connection.session().await, Err(Error::NoChannel { reason: 4, .. })));
}

#[tokio::test]
async fn a_cut_is_an_error() {
    let (connection, server) = both(by_password(10)).await;
    let server = tokio::spawn(async move {
        let channel = server.next_channel().await.unwrap().confirm().unwrap();
        channel.next_request().await.unwrap().answer(true);
        channel.tell("exit-status", &[0, 0, 0, 0]).unwrap();
        channel.data().write_all(b"half").await.unwrap();
        server.close().await;
    });
    let session = connection.session().await.unwrap();
    session.exec("x").await.unwrap();
    let mut came = Vec::new();
    assert!(session.data().read_to_end(&mut came).await.is_err());
    assert_eq!(came, b"half");
    assert!(matches!(session.wait().await, Err(Error::Disconnected { .. })));
    server.await.unwrap();
}

#[tokio::test]
async fn requests_are_answered_in_their_order() {
    let (connection, server) = both(by_password(10)).await;
    let session = connection.session();
    let channel = async { server.next_channel().await.unwrap().confirm().unwrap() };
    let (session, channel) = tokio::join!(session, channel);
    let session = session.unwrap();
    let answers = async {
        let (first, second) = (channel.next_request().await.unwrap(), channel.next_request().await.unwrap());
        second.answer(true);
        drop(first);
    };
    let (first, second, ()) = tokio::join!(session.request("a", b""), session.request("b", b""), answers);
    assert_eq!((first.unwrap(), second.unwrap()), (false, true));
}

#[tokio::test]
async fn a_command_that_is_too_long_fails_alone() {
    let connection = connected("word", 10).await.unwrap();
    let session = connection.session().await.unwrap();
    let outcome = session.exec(vec![b'x'; 256 * 1024]).await;
    assert!(matches!(outcome, Err(Error::Library(divrelca::Error::TooLong))), "{outcome:?}");
    session.exec("echo").await.unwrap();
    session.end().unwrap();
    assert_eq!(session.wait().await.unwrap(), Some(Exit::Status(3)));
}

#[tokio::test]
async fn ports_are_forwarded_both_ways() {
    let mut config = by_password(10);
    config.listens = true;
    let (client, server) = both(config).await;
    let listens = async {
        let listen = server.next_listen().await.unwrap();
        assert_eq!((listen.begins(), listen.address(), listen.port()), (true, "localhost", Some(0)));
        listen.done(4022);
        drop(server.next_listen().await.unwrap());
    };
    let asks = async {
        assert_eq!(client.forward("localhost", 0).await.unwrap(), 4022);
        assert!(client.forward("localhost", 7).await.is_err());
    };
    tokio::join!(listens, asks);
    let from = Forwarded { host: "localhost".into(), port: 4022, origin: "::1".into(), origin_port: 9 };
    let takes = async {
        let offer = client.next_channel().await.unwrap();
        assert_eq!((offer.kind(), Forwarded::of(offer.rest()).as_ref()), ("forwarded-tcpip", Some(&from)));
        offer.confirm().unwrap()
    };
    let (there, here) = tokio::join!(server.forwarded(&from), takes);
    there.unwrap().data().write_all(b"hello").await.unwrap();
    let mut came = [0; 5];
    here.data().read_exact(&mut came).await.unwrap();
    assert_eq!(&came, b"hello");
    let offers = async { server.next_channel().await.unwrap().refuse(2) };
    let (refused, ()) = tokio::join!(client.direct("example.org", 80), offers);
    assert!(matches!(refused, Err(Error::NoChannel { reason: 2, .. })));
}

#[tokio::test]
async fn an_agent_is_reached_where_it_is_offered() {
    let (client, server) = both(by_password(10)).await;
    assert!(matches!(server.agent().await, Err(Error::NoChannel { .. })));
    let answers = async {
        let channel = server.next_channel().await.unwrap().confirm().unwrap();
        for success in [true, false] {
            let request = channel.next_request().await.unwrap();
            assert_eq!((request.name(), request.rest()), (&b"auth-agent-req@openssh.com"[..], &b""[..]));
            request.answer(success);
        }
        channel
    };
    let asks = async {
        let session = client.session().await.unwrap();
        session.agent().await.unwrap();
        assert!(matches!(session.agent().await, Err(Error::RequestFailed("auth-agent-req@openssh.com"))));
        session
    };
    let (_channel, _session) = tokio::join!(answers, asks);
    let takes = async {
        let offer = client.next_channel().await.unwrap();
        assert_eq!((offer.kind(), offer.rest()), ("auth-agent@openssh.com", &b""[..]));
        offer.confirm().unwrap()
    };
    let (there, here) = tokio::join!(server.agent(), takes);
    there.unwrap().data().write_all(b"hello").await.unwrap();
    let mut came = [0; 5];
    here.data().read_exact(&mut came).await.unwrap();
    assert_eq!(&came, b"hello");
}

#[tokio::test]
async fn what_is_asked_for_before_a_close_is_sent() {
    let (mut config, mut trusts) = (by_password(10), trusts(HOST));
    (config.epoch_limit, trusts.epoch_limit) = (64, 64);
    let connection = connected_by(config, trusts, "word").await.unwrap();
    let session = connection.session().await.unwrap();
    session.exec("echo").await.unwrap();
    let (mut up, mut down) = (session.data(), session.data());
    let sent = vec![7; 3_000_000];
    let mut came = Vec::new();
    let writes = async {
        up.write_all(&sent).await.unwrap();
        up.shutdown().await.unwrap();
    };
    tokio::join!(writes, async { down.read_to_end(&mut came).await.unwrap() });
    assert_eq!(came.len(), sent.len());
    connection.close().await;
}
