//! The session, and standard input and output.

use crate::log::say;
use crate::stdio::{self, Stdio};
use crate::terminal;
use crate::words::{Terminal, Words};
use crate::Failure;
use divrelca_tokio::client::{Connection, Session};
use divrelca_tokio::{Exit, Stream};
use std::future::pending;
use std::io;
use tokio::io::{AsyncReadExt, AsyncWriteExt};
use tokio::signal::unix::{signal, SignalKind};

/// Carries standard input and output over a channel: -W.
pub async fn carry(channel: Stream) -> Result<i32, Failure> {
    let mut sends = channel.clone();
    let up = async {
        let _ = send_input(stdio::input(false)?, &mut sends).await;
        let _ = sends.shutdown().await;
        pending::<Result<i32, Failure>>().await
    };
    tokio::select! {
        done = write_output(channel, stdio::output()?) => Ok(done?.map(|()| 0)?),
        never = up => never,
    }
}

async fn send_input(mut from: Stdio, to: &mut Stream) -> io::Result<()> {
    loop {
        let piece = from.read().await?;
        if piece.is_empty() {
            return Ok(());
        }
        to.write_all(piece).await?;
    }
}

// Writes all that comes, and answers how that ended. An error is one of this side.
async fn write_output(mut from: Stream, mut to: Stdio) -> Result<io::Result<()>, Failure> {
    let mut piece = vec![0; 1 << 17];
    loop {
        match from.read(&mut piece).await {
            Ok(0) => return Ok(Ok(())),
            Ok(count) => to.write_all(&piece[..count]).await?,
            Err(error) => return Ok(Err(error)),
        }
    }
}

async fn start(session: &Session, words: &Words) -> Result<Option<terminal::Changed>, Failure> {
    for (name, value) in &words.variables {
        session.variable(name, value)?;
    }
    if words.forwards_agent && words.agent().is_some() {
        if let Err(error) = session.agent().await {
            say(&format!("the agent is not forwarded: {error}"));
        }
    }
    let is_terminal = !words.no_input && terminal::is_terminal(0);
    let wants = match words.terminal {
        Terminal::Auto => words.command.is_empty() && !words.is_subsystem && is_terminal,
        Terminal::No => false,
        Terminal::Yes => is_terminal,
        Terminal::Force => true,
    };
    let mut changed = None;
    if wants {
        let term = std::env::var("TERM").unwrap_or_else(|_| "dumb".into());
        match session.terminal(&term, terminal::size()).await {
            Ok(()) if is_terminal => changed = terminal::Changed::raw(),
            Ok(()) => {}
            Err(error) => say(&format!("no terminal at the server: {error}")),
        }
    }
    if words.is_subsystem {
        session.subsystem(&String::from_utf8_lossy(&words.command)).await?;
    } else if words.command.is_empty() {
        session.shell().await?;
    } else {
        session.exec(&words.command).await?;
    }
    Ok(changed)
}

async fn resizes(session: &Session, follows: bool) {
    if let (Ok(mut resized), true) = (signal(SignalKind::window_change()), follows) {
        while resized.recv().await.is_some() {
            let _ = session.resize(terminal::size());
        }
    }
    pending().await
}

/// Runs what the words say, and answers its exit status.
pub async fn run(connection: &Connection, words: &Words) -> Result<i32, Failure> {
    let session = connection.session().await?;
    let changed = start(&session, words).await?;
    let down = async {
        // what came before a cut is written; that there was one is told by the wait
        let _ = tokio::try_join!(write_output(session.data(), stdio::output()?), write_output(session.error(), stdio::error()?))?;
        Ok::<_, Failure>(session.wait().await?)
    };
    let up = async {
        if let Ok(input) = stdio::input(words.no_input) {
            let _ = send_input(input, &mut session.data()).await;
        }
        let _ = session.end();
        pending::<()>().await
    };
    let exit = tokio::select! {
        exit = down => exit,
        () = up => Ok(None),
        () = resizes(&session, changed.is_some()) => Ok(None),
    };
    session.close();
    match exit? {
        Some(Exit::Status(status)) => Ok((status & 0xff) as i32),
        Some(Exit::Signal(name)) => Err(format!("the command was ended by signal {name}").into()),
        Some(other) => Err(format!("the command ended by {other:?}").into()),
        None => Err("the session was closed without an exit status".into()),
    }
}
