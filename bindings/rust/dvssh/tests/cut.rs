//! dvssh against a server that cuts the connection behind exit-status 0, or says nothing of how the command ended.

use divrelca_tokio::keys::{public_key, to_blob};
use divrelca_tokio::server::{accept, Config, Credential};
use std::path::PathBuf;
use tokio::io::AsyncWriteExt;
use tokio::net::TcpListener;
use tokio::process::Command;

const HOST: [u8; 32] = [9; 32];

fn base64(bytes: &[u8]) -> String {
    const DIGITS: &[u8; 64] = b"ABCDEFGHIJKLMNOPQRSTUVWXYZabcdefghijklmnopqrstuvwxyz0123456789+/";
    let digits = |three: &[u8]| {
        let all = three.iter().chain(&[0, 0]).take(3).fold(0usize, |all, &it| all << 8 | usize::from(it));
        (0..4).map(|at| if at <= three.len() { DIGITS[all >> (18 - 6 * at) & 63] as char } else { '=' }).collect::<String>()
    };
    bytes.chunks(3).map(digits).collect()
}

// What dvssh writes and answers where the server sends exit-status 0 or not, and data, and then closes the channel or the connection.
async fn status(name: &str, says_status: bool, closes: bool) -> (Option<i32>, Vec<u8>) {
    let listener = TcpListener::bind("127.0.0.1:0").await.unwrap();
    let port = listener.local_addr().unwrap().port().to_string();
    let known = PathBuf::from(env!("CARGO_TARGET_TMPDIR")).join(format!("dvssh-{name}"));
    std::fs::write(&known, format!("* ssh-ed25519 {}\n", base64(&to_blob(&public_key(&HOST))))).unwrap();
    let server = tokio::spawn(async move {
        let mut config = Config::new(HOST);
        config.users = vec![("me".into(), Credential::password("word"))];
        let connection = accept(listener.accept().await.unwrap().0, &config).await.unwrap();
        let channel = connection.next_channel().await.unwrap().confirm().unwrap();
        channel.next_request().await.unwrap().answer(true);
        if says_status {
            channel.tell("exit-status", &[0; 4]).unwrap();
        }
        channel.data().write_all(b"half").await.unwrap();
        if closes {
            channel.close();
            let _ = connection.next_channel().await;
        } else {
            connection.close().await;
        }
    });
    let mut starts = Command::new(env!("CARGO_BIN_EXE_dvssh"));
    let known = format!("UserKnownHostsFile={}", known.display());
    let output = starts
        .env("DVSSH_PASSWORD", "word")
        .args(["-o", &known, "-o", "PubkeyAuthentication=no", "-p", &port, "me@127.0.0.1", "x"])
        .output()
        .await
        .unwrap();
    server.await.unwrap();
    (output.status.code(), output.stdout)
}

#[tokio::test]
async fn a_session_that_is_cut_fails() {
    assert_eq!(status("cut", true, false).await, (Some(255), b"half".to_vec()));
    assert_eq!(status("closed", true, true).await, (Some(0), b"half".to_vec()));
    assert_eq!(status("silent", false, true).await, (Some(255), b"half".to_vec()));
}
