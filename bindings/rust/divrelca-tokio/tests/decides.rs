//! A client and a server that decide in their own time, in one process.

use divrelca_tokio::keys::{fingerprint, public_key};
use divrelca_tokio::server::{accept, Config as ServerConfig, Rejected, Shown};
use divrelca_tokio::{client, decide, Error, Question};
use std::sync::{Arc, Mutex};
use std::time::Duration;
use tokio::io::duplex;
use tokio::time::sleep;

const HOST: [u8; 32] = [7; 32];
const USER: [u8; 32] = [8; 32];

type Asked = Arc<Mutex<Vec<Question>>>;

// A server that notes what it is asked, and says yes to the password "word" and to the key of USER, after a while.
fn server(asked: &Asked) -> ServerConfig {
    let asked = asked.clone();
    let mut config = ServerConfig::new(HOST);
    config.authorize = Some(decide(move |question: Question| {
        let asked = asked.clone();
        async move {
            asked.lock().unwrap().push(question.clone());
            sleep(Duration::from_millis(20)).await;
            match question {
                Question::Password { user, password } => user == b"me" && password[..] == b"word"[..],
                Question::Key { key, .. } => key.ends_with(&public_key(&USER)),
                _ => false,
            }
        }
    }));
    config
}

// A client without a key of its host, that says this of it.
fn client(says: bool) -> client::Config {
    let mut config = client::Config::new([]);
    config.trust = Some(decide(move |question| async move {
        sleep(Duration::from_millis(20)).await;
        matches!(question, Question::HostKey { key, algorithm } if key.ends_with(&public_key(&HOST)) && algorithm == "ssh-ed25519") && says
    }));
    config
}

async fn both(
    server: ServerConfig,
    client: client::Config,
    word: &str,
) -> (Result<client::Connection, Error>, Result<divrelca_tokio::server::Connection, Rejected>) {
    let (here, there) = duplex(5000);
    let serves = tokio::spawn(async move { accept(there, &server).await });
    let connection = client::connect(here, &client, "me", Some(word)).await;
    (connection, serves.await.unwrap())
}

#[tokio::test]
async fn a_password_and_a_new_host() {
    let asked = Asked::default();
    let (connection, served) = both(server(&asked), client(true), "word").await;
    assert_eq!(served.unwrap().shown(), &Shown::Password);
    drop(connection.unwrap());
    let asked = asked.lock().unwrap();
    assert!(matches!(&asked[..], [Question::Admission { user }, Question::Password { .. }] if user == b"me"), "{asked:?}");
    let shown = format!("{asked:?}");
    assert!(!shown.contains("\"word\"") && !shown.contains("119, 111, 114, 100"), "{shown}");
}

#[tokio::test]
async fn a_key() {
    let asked = Asked::default();
    let mut me = client(true);
    me.user_seed = Some(USER.into());
    let (connection, served) = both(server(&asked), me, "no word").await;
    assert_eq!(served.unwrap().shown(), &Shown::Key(public_key(&USER)));
    drop(connection.unwrap());
    assert_eq!(asked.lock().unwrap().len(), 2);
}

#[tokio::test]
async fn no_to_the_user() {
    let (connection, served) = both(server(&Asked::default()), client(true), "no word").await;
    assert!(matches!(connection, Err(Error::NotLetIn(_))), "{connection:?}");
    drop(connection);
    assert_eq!(served.unwrap_err().tried[0].shown, Shown::Password);
}

#[tokio::test]
async fn no_to_the_host() {
    let (connection, _) = both(server(&Asked::default()), client(false), "word").await;
    assert!(matches!(&connection, Err(Error::Refused(why)) if why == "BadHost"), "{connection:?}");
}

// Nothing is asked of who has an entry, nor of a host that is known.
#[tokio::test]
async fn what_is_known_is_not_asked() {
    let asked = Asked::default();
    let mut config = server(&asked);
    config.users = vec![("me".into(), divrelca_tokio::server::Credential::password("other"))];
    let mut me = client(false);
    me.host_keys = vec![public_key(&HOST)];
    let (connection, served) = both(config, me, "other").await;
    assert_eq!(served.unwrap().shown(), &Shown::Password);
    drop(connection.unwrap());
    assert!(asked.lock().unwrap().is_empty());
}

// Whoever waits for an answer may go.
#[tokio::test]
async fn a_connection_that_is_dropped_meanwhile() {
    let mut config = ServerConfig::new(HOST);
    config.authorize = Some(decide(|_| async {
        sleep(Duration::from_secs(60)).await;
        true
    }));
    let (here, there) = duplex(5000);
    let serves = tokio::spawn(async move { accept(there, &config).await });
    let tries = tokio::time::timeout(Duration::from_millis(300), client::connect(here, &client(true), "me", Some("word"))).await;
    assert!(tries.is_err());
    let served = tokio::time::timeout(Duration::from_secs(10), serves).await;
    assert!(served.unwrap().unwrap().is_err());
}

// An answer that comes too late for the time of a login is no answer.
#[tokio::test]
async fn a_login_that_takes_too_long() {
    let mut config = ServerConfig::new(HOST);
    config.grace = Duration::from_millis(200);
    config.authorize = Some(decide(|_| async {
        sleep(Duration::from_secs(60)).await;
        true
    }));
    let (connection, served) = both(config, client(true), "word").await;
    assert!(connection.is_err());
    assert!(matches!(served.unwrap_err().why, Error::Silent));
}

#[test]
fn a_fingerprint() {
    let key = [b"\0\0\0\x0bssh-ed25519\0\0\0 ".as_slice(), &public_key(&HOST)].concat();
    let shown = fingerprint(&key);
    assert!(shown.starts_with("SHA256:") && shown.len() == 50, "{shown}");
}
