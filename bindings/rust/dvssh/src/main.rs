//! dvssh: a client of SSH-2 that takes the words that git, rsync, scp, sftp, sshfs, ansible and others pass to OpenSSH's ssh.
//!
//! It runs a command, a subsystem or a shell, with a terminal where there is one, and forwards ports (-L, -R, -D, -W), also over other
//! hosts (-J). It reads the configuration that -F names, and no other. The host's key stands in known_hosts, or a person at the terminal is
//! asked about it. The user's key is that of -i, or ~/.ssh/id_ed25519; else the password is that of DVSSH_PASSWORD, or is asked for. Its exit status is the command's, and 255
//! where the session did not come to its end.

mod background;
mod connect;
mod file;
mod forward;
mod hosts;
mod identities;
mod log;
mod names;
mod options;
mod session;
mod socks;
mod stdio;
mod terminal;
mod words;

use background::Background;
use divrelca_tokio::client::Connection;
use log::say;
use std::io;
use std::process::exit;
use tokio::signal::unix::{signal, SignalKind};
use words::Words;

const FAILED: i32 = 255;
type Failure = Box<dyn std::error::Error>;

fn main() {
    let mut all = std::env::args_os().skip(1).peekable();
    if matches!(all.peek(), Some(it) if it == "-V" || it == "--version") {
        eprintln!("dvssh {}", env!("CARGO_PKG_VERSION"));
        exit(0);
    }
    if matches!(all.peek(), Some(it) if it == "--help") {
        print!("{}", include_str!("help.txt"));
        exit(0);
    }
    let words = match Words::read(all) {
        Ok(words) => words,
        Err(what) => fail(&what),
    };
    if let Some(path) = &words.log {
        log::open(path).unwrap_or_else(|error| fail(&format!("{path}: {error}")));
    }
    let background = match words.is_background {
        true => Background::fork().unwrap_or_else(|error| fail(&error.to_string())),
        false => Background::none(),
    };
    let status = match tokio::runtime::Builder::new_current_thread().enable_all().build() {
        Ok(runtime) => {
            let status = runtime.block_on(run(&words, background));
            // a thread may still read standard input, or a password
            runtime.shutdown_background();
            status
        }
        Err(error) => fail(&error.to_string()),
    };
    exit(status);
}

fn fail(what: &str) -> ! {
    say(what);
    exit(FAILED);
}

async fn run(words: &Words, background: Background) -> i32 {
    let outcome = tokio::select! {
        outcome = whole(words, background) => outcome,
        name = signalled() => Err(format!("ended by {name}").into()),
    };
    outcome.unwrap_or_else(|error| {
        let is_broken_pipe = matches!(error.downcast_ref::<io::Error>(), Some(it) if it.kind() == io::ErrorKind::BrokenPipe);
        if !is_broken_pipe || words.verbose > 0 {
            say(&error.to_string());
        }
        FAILED
    })
}

async fn signalled() -> &'static str {
    let all = (signal(SignalKind::interrupt()), signal(SignalKind::terminate()), signal(SignalKind::hangup()));
    match all {
        (Ok(mut interrupt), Ok(mut terminate), Ok(mut hangup)) => tokio::select! {
            _ = interrupt.recv() => "SIGINT",
            _ = terminate.recv() => "SIGTERM",
            _ = hangup.recv() => "SIGHUP",
        },
        _ => "a lack of signals",
    }
}

async fn whole(words: &Words, background: Background) -> Result<i32, Failure> {
    let connection = connect::connect(words).await?;
    forwards(&connection, words).await?;
    background.go()?;
    let status = match &words.carries_to {
        Some((host, port)) => session::carry(connection.direct(host, *port).await?.data()).await,
        None if words.no_command => Err(connection.over().await.into()),
        None => session::run(&connection, words).await,
    };
    connection.close().await;
    status
}

async fn forwards(connection: &Connection, words: &Words) -> Result<(), Failure> {
    let mut failed = Vec::new();
    for forward in &words.local_forwards {
        if let Err(error) = forward::listen(connection.clone(), forward.clone()).await {
            failed.push(format!("port {}: {error}", forward.port));
        }
    }
    let (taken, lost) = forward::listen_there(connection, &words.remote_forwards).await;
    forward::take_all(connection, taken, words.agent().filter(|_| words.forwards_agent));
    failed.extend(lost);
    for what in &failed {
        say(what);
    }
    if words.needs_forwards && !failed.is_empty() {
        return Err("a port could not be forwarded".into());
    }
    Ok(())
}
