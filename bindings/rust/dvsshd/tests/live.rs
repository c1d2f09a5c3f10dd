//! dvsshd against a client that OpenSSH's is not: names with control characters, commands that are closed before they begin, and those
//! that are longer than a packet.

use divrelca_tokio::client::{connect, handshake, Config};
use divrelca_tokio::keys::{private_key, public_key};
use divrelca_tokio::wire::Put;
use divrelca_tokio::{Error, Exit};
use std::io::{BufRead, BufReader};
use std::path::PathBuf;
use std::process::{Child, ChildStderr, Command, Stdio};
use std::time::Duration;
use tokio::io::AsyncReadExt;
use tokio::net::TcpStream;

struct Server {
    child: Child,
    log: BufReader<ChildStderr>,
    port: u16,
    config: Config,
}

impl Drop for Server {
    fn drop(&mut self) {
        let _ = self.child.kill();
        let _ = self.child.wait();
    }
}

fn server(name: &str) -> Server {
    let folder = PathBuf::from(env!("CARGO_TARGET_TMPDIR")).join(format!("dvsshd-{name}"));
    let _ = std::fs::remove_dir_all(&folder);
    std::fs::create_dir_all(&folder).unwrap();
    let (key, word) = (folder.join("host"), folder.join("word"));
    assert!(Command::new("ssh-keygen").args(["-q", "-t", "ed25519", "-N", "", "-f"]).arg(&key).status().unwrap().success());
    std::fs::write(&word, "word\n").unwrap();
    let port = std::net::TcpListener::bind("127.0.0.1:0").unwrap().local_addr().unwrap().port();
    let mut starts = Command::new(env!("CARGO_BIN_EXE_dvsshd"));
    starts.arg("-h").arg(&key).arg("-P").arg(&word).args(["-u", "me", "-p", &port.to_string()]);
    let mut child = starts.stderr(Stdio::piped()).spawn().unwrap();
    let mut log = BufReader::new(child.stderr.take().unwrap());
    log.read_line(&mut String::new()).unwrap();
    let (seed, key) = private_key(&std::fs::read(&key).unwrap()).unwrap();
    assert_eq!(public_key(&seed), key);
    Server { child, log, port, config: Config::new([key]) }
}

async fn socket(server: &Server) -> TcpStream {
    TcpStream::connect(("127.0.0.1", server.port)).await.unwrap()
}

#[tokio::test]
async fn what_a_peer_says_is_escaped_in_the_log() {
    let mut server = server("escaped");
    let connection = handshake(socket(&server).await, &server.config).await.unwrap();
    let _ = connection.login_password("x in\ndvsshd: 10.0.0.1: root is let in\n\x1b[2J", "y").await;
    connection.close().await;
    let mut line = String::new();
    server.log.read_line(&mut line).unwrap();
    assert!(line.contains("nobody is let in") && line.contains("\\n") && line.contains("\\x1b") && !line.contains('\x1b'), "{line}");
    assert!(line.contains("127.0.0.1:"), "{line}");
}

#[tokio::test]
async fn commands_that_are_closed_at_once_end() {
    let server = server("closed");
    let connection = connect(socket(&server).await, &server.config, "me", Some("word")).await.unwrap();
    let (mut refused, mark) = (0, format!("sleep 1000{}", server.port));
    for _ in 0..200 {
        match connection.session().await {
            Ok(session) => session.tell("exec", &Put::new().string(&mark).done()).unwrap(),
            Err(_) => refused += 1,
        }
    }
    tokio::time::sleep(Duration::from_secs(2)).await;
    let session = connection.session().await.unwrap();
    session.exec("ps -eo args").await.unwrap();
    let mut all = String::new();
    session.data().read_to_string(&mut all).await.unwrap();
    assert_eq!(session.wait().await.unwrap(), Some(Exit::Status(0)));
    let left = all.lines().filter(|it| it.starts_with(&mark)).count();
    assert_eq!(left, 0, "{refused} of 200 were refused");
}

#[tokio::test]
async fn a_command_that_is_too_long_fails_alone() {
    let server = server("long");
    let connection = connect(socket(&server).await, &server.config, "me", Some("word")).await.unwrap();
    let session = connection.session().await.unwrap();
    assert!(matches!(session.exec(vec![b' '; 256 * 1024]).await, Err(Error::Library(_))));
    session.exec([&b"echo "[..], &vec![b'x'; 32_000]].concat()).await.unwrap();
    let mut all = String::new();
    session.data().read_to_string(&mut all).await.unwrap();
    assert_eq!((all.len(), session.wait().await.unwrap()), (32_001, Some(Exit::Status(0))));
}
