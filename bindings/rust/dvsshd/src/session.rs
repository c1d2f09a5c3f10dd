//! The command of a session: its terminal, its environment, its process, and its end.

use crate::agent::Agent;
use crate::authorized::Rights;
use crate::descriptor::{Descriptor, MostDescriptors};
use divrelca_tokio::server::Connection;
use divrelca_tokio::wire::Take;
use divrelca_tokio::{Channel, Exit, Request, Stream};
use nix::fcntl::OFlag;
use nix::libc;
use nix::pty::{grantpt, posix_openpt, ptsname_r, unlockpt};
use nix::sys::signal::{killpg, Signal};
use nix::unistd::Pid;
use std::ffi::{OsStr, OsString};
use std::fs::File;
use std::io;
use std::os::unix::ffi::OsStrExt;
use std::os::unix::fs::OpenOptionsExt;
use std::os::unix::io::{AsRawFd, FromRawFd, IntoRawFd, OwnedFd};
use std::os::unix::process::ExitStatusExt;
use std::process::{ExitStatus, Stdio};
use tokio::io::{AsyncRead, AsyncReadExt, AsyncWrite, AsyncWriteExt};
use tokio::process::{Child, Command};

nix::ioctl_write_ptr_bad!(write_size, libc::TIOCSWINSZ, libc::winsize);
nix::ioctl_write_int_bad!(take_terminal, libc::TIOCSCTTY);

/// Who runs commands, and what each is told of.
pub struct Account {
    pub name: String,
    pub home: OsString,
    pub shell: OsString,
    pub sftp_server: OsString,
    /// The limit that this process was started with: its commands have it.
    pub most_descriptors: MostDescriptors,
}

/// A connection: who may do what, and between which addresses it is.
#[derive(Clone)]
pub struct Between {
    pub rights: Rights,
    /// The client's address and port, and the server's, as SSH_CONNECTION has them.
    pub addresses: [String; 4],
}

struct Terminal {
    master: Descriptor,
    path: String,
}

/// What a session is asked for before its command, and its command.
pub struct Session<'a> {
    channel: Channel,
    account: &'a Account,
    between: Between,
    connection: Connection,
    terminal: Option<Terminal>,
    agent: Option<Agent>,
    variables: Vec<(&'static str, OsString)>,
}

// Variables that say the language, and the one of git's protocol. No other is taken.
const KNOWN: [&str; 8] = ["LANG", "LC_ALL", "LC_CTYPE", "LC_MESSAGES", "LC_COLLATE", "LC_NUMERIC", "LC_TIME", "GIT_PROTOCOL"];
const MOST_VARIABLE: usize = 4096;
const LEAST_PIECE: usize = 1 << 12;
const MOST_PIECE: usize = 1 << 17;
// The last of Linux's signals.
const MOST_SIGNAL: libc::c_int = 64;

fn take_size(rest: &mut Take<'_>) -> Option<libc::winsize> {
    let mut next = || rest.number().map(|it| it as u16);
    let (ws_col, ws_row) = (next()?, next()?);
    Some(libc::winsize { ws_col, ws_row, ws_xpixel: next()?, ws_ypixel: next()? })
}

fn set_size(terminal: &Descriptor, size: &libc::winsize) -> io::Result<()> {
    // SAFETY: the call reads a winsize.
    unsafe { write_size(terminal.as_raw_fd(), size) }?;
    Ok(())
}

impl<'a> Session<'a> {
    pub fn new(channel: Channel, account: &'a Account, between: Between, connection: Connection) -> Self {
        Session { channel, account, between, connection, terminal: None, agent: None, variables: Vec::new() }
    }

    /// Serves the session to its end.
    pub async fn serve(mut self) -> io::Result<()> {
        while let Some(request) = self.channel.next_request().await {
            let mut rest = Take(request.rest());
            let asked = match request.name() {
                b"exec" => rest.string().filter(|it| !it.contains(&0)).map(|it| Some(OsStr::from_bytes(it).to_owned())),
                b"subsystem" if rest.string() == Some(b"sftp") => Some(Some(self.account.sftp_server.clone())),
                b"shell" => Some(None),
                b"pty-req" => {
                    let done = self.take_terminal(&mut rest).is_some();
                    request.answer(done);
                    continue;
                }
                b"env" => {
                    let done = self.take_variable(&mut rest).is_some();
                    request.answer(done);
                    continue;
                }
                b"auth-agent-req@openssh.com" => {
                    let done = self.take_agent().is_some();
                    request.answer(done);
                    continue;
                }
                _ => None,
            };
            if let Some(asked) = asked {
                let command = self.forced(asked);
                let (child, pipes) = self.spawn(command)?;
                request.answer(true);
                return self.run(child, pipes).await;
            }
        }
        Ok(())
    }

    // The command that is run in place of what is asked for, where there is one.
    fn forced(&mut self, asked: Option<OsString>) -> Option<OsString> {
        match &self.between.rights.command {
            Some(command) => {
                self.variables.extend(asked.map(|it| ("SSH_ORIGINAL_COMMAND", it)));
                Some(command.into())
            }
            None => asked,
        }
    }

    fn take_terminal(&mut self, rest: &mut Take<'_>) -> Option<()> {
        let (term, size) = (rest.string()?, take_size(rest)?);
        if self.terminal.is_some() || term.contains(&0) || !self.between.rights.terminal {
            return None;
        }
        // close-on-exec from the start, as all that the standard library opens
        let master = posix_openpt(OFlag::O_RDWR | OFlag::O_NOCTTY | OFlag::O_CLOEXEC).ok()?;
        grantpt(&master).ok()?;
        unlockpt(&master).ok()?;
        let path = ptsname_r(&master).ok()?;
        // SAFETY: the descriptor was that of `master`, and is nobody else's.
        let master = Descriptor::new(unsafe { OwnedFd::from_raw_fd(master.into_raw_fd()) }).ok()?;
        set_size(&master, &size).ok()?;
        self.variables.push(("TERM", OsStr::from_bytes(term).to_owned()));
        self.variables.push(("SSH_TTY", path.clone().into()));
        self.terminal = Some(Terminal { master, path });
        Some(())
    }

    fn take_variable(&mut self, rest: &mut Take<'_>) -> Option<()> {
        let (name, value) = (rest.text()?, rest.string()?);
        let known = KNOWN.iter().find(|&&it| it == name)?;
        if value.contains(&0) || value.len() > MOST_VARIABLE {
            return None;
        }
        self.variables.retain(|it| it.0 != *known);
        self.variables.push((known, OsStr::from_bytes(value).to_owned()));
        Some(())
    }

    fn take_agent(&mut self) -> Option<()> {
        if self.agent.is_some() || !self.between.rights.agent {
            return None;
        }
        let agent = Agent::open(self.connection.clone()).ok()?;
        self.variables.push(("SSH_AUTH_SOCK", agent.socket().into()));
        self.agent = Some(agent);
        Some(())
    }

    // The command with its environment, which is fresh.
    fn command(&self, command: &Option<OsString>) -> Command {
        let account = self.account;
        let mut spawns = Command::new(&account.shell);
        match command {
            Some(command) => spawns.arg("-c").arg(command),
            None => spawns.arg("-l"),
        };
        let [client, client_port, _, port] = &self.between.addresses;
        spawns.env_clear().envs(self.variables.iter().map(|(name, value)| (name, value)));
        spawns.env("HOME", &account.home).env("USER", &account.name).env("LOGNAME", &account.name).env("SHELL", &account.shell);
        spawns.env("PATH", "/usr/local/sbin:/usr/local/bin:/usr/sbin:/usr/bin:/sbin:/bin");
        spawns.env("SSH_CONNECTION", self.between.addresses.join(" "));
        spawns.env("SSH_CLIENT", format!("{client} {client_port} {port}"));
        if std::path::Path::new(&account.home).is_dir() {
            spawns.current_dir(&account.home);
        }
        spawns
    }

    // Starts the command in a session of its own. Once this returns the group is there, and can be ended.
    fn spawn(&self, command: Option<OsString>) -> io::Result<(Child, Vec<Pipe>)> {
        let (mut spawns, has_terminal) = (self.command(&command), self.terminal.is_some());
        let most_descriptors = self.account.most_descriptors;
        // SAFETY: between fork and exec system calls are made, and nothing else.
        unsafe {
            spawns.pre_exec(move || {
                nix::unistd::setsid()?;
                // a server that was started behind a shell ignores interrupts; its commands do not
                for number in 1..=MOST_SIGNAL {
                    libc::signal(number, libc::SIG_DFL);
                }
                if has_terminal {
                    take_terminal(0, 0)?;
                }
                most_descriptors.restore()
            });
        }
        match &self.terminal {
            Some(terminal) => {
                let end = File::options().read(true).write(true).custom_flags(libc::O_NOCTTY).open(&terminal.path)?;
                let child = spawns.stdin(end.try_clone()?).stdout(end.try_clone()?).stderr(end).spawn()?;
                let master = &terminal.master;
                Ok((child, vec![Pipe::Terminal(master.clone()), Pipe::Out(Box::new(master.clone()), self.channel.data())]))
            }
            None => {
                let mut child = spawns.stdin(Stdio::piped()).stdout(Stdio::piped()).stderr(Stdio::piped()).spawn()?;
                match (child.stdin.take(), child.stdout.take(), child.stderr.take()) {
                    (Some(into), Some(out), Some(error)) => {
                        let out = Pipe::Out(Box::new(out), self.channel.data());
                        let error = Pipe::Out(Box::new(error), self.channel.error());
                        Ok((child, vec![Pipe::Into(Box::new(into)), out, error]))
                    }
                    _ => Err(io::ErrorKind::Other.into()),
                }
            }
        }
    }

    async fn run(&mut self, mut child: Child, pipes: Vec<Pipe>) -> io::Result<()> {
        let group = child.id().map(|it| Pid::from_raw(it as i32));
        let channel = self.channel.clone();
        let (mut outs, mut into) = (Vec::new(), None);
        for pipe in pipes {
            match pipe {
                Pipe::Out(from, to) => outs.push(tokio::spawn(pour(from, to))),
                other => into = Some(tokio::spawn(other.feed(channel.data()))),
            }
        }
        let all = async {
            for out in &mut outs {
                let _ = out.await;
            }
            let _ = channel.end(); // the command may run on, and take input
            child.wait().await
        };
        let exited = tokio::select! {
            status = all => Some(status?),
            () = self.hear_all(group) => None, // the channel is closed
        };
        into.into_iter().for_each(|it| it.abort());
        if let Some(status) = exited {
            let _ = channel.exit(&exit(status));
            return Ok(());
        }
        outs.iter().for_each(|it| it.abort());
        self.terminal = None;
        if let Some(group) = group {
            let _ = killpg(group, Signal::SIGHUP);
        }
        child.wait().await.map(drop) // its place is taken until then
    }

    async fn hear_all(&self, group: Option<Pid>) {
        while let Some(request) = self.channel.next_request().await {
            let done = self.hear(&request, group).is_some();
            request.answer(done);
        }
    }

    fn hear(&self, request: &Request, group: Option<Pid>) -> Option<()> {
        let mut rest = Take(request.rest());
        match request.name() {
            b"window-change" => set_size(&self.terminal.as_ref()?.master, &take_size(&mut rest)?).ok(),
            b"signal" => {
                let signal = format!("SIG{}", rest.text()?).parse::<Signal>().ok()?;
                killpg(group?, signal).ok()
            }
            _ => None,
        }
    }
}

enum Pipe {
    Into(Box<dyn AsyncWrite + Unpin + Send>),
    Terminal(Descriptor),
    Out(Box<dyn AsyncRead + Unpin + Send>, Stream),
}

impl Pipe {
    // A pipe is told of the end by being closed, a terminal by a byte. Where nobody takes the input any more it is dropped.
    async fn feed(self, mut from: Stream) {
        match self {
            Pipe::Into(into) => pour(&mut from, into).await,
            Pipe::Terminal(mut into) => {
                pour(&mut from, &mut into).await;
                let _ = into.write_all(&[4]).await;
            }
            Pipe::Out(..) => {}
        }
        let _ = tokio::io::copy(&mut from, &mut tokio::io::sink()).await;
    }
}

// The room for a piece grows where pieces fill it: most commands say little, and a session has three streams.
async fn pour(mut from: impl AsyncRead + Unpin, mut to: impl AsyncWrite + Unpin) {
    let mut piece = vec![0; LEAST_PIECE];
    while let Ok(count) = from.read(&mut piece).await {
        if count == 0 || to.write_all(&piece[..count]).await.is_err() {
            return;
        }
        if count == piece.len() && count < MOST_PIECE {
            piece.resize(2 * count, 0);
        }
    }
}

fn exit(status: ExitStatus) -> Exit {
    match (status.code(), status.signal().and_then(|it| Signal::try_from(it).ok())) {
        (Some(code), _) => Exit::Status(code as u32),
        (None, Some(signal)) => Exit::Signal(signal.as_str().trim_start_matches("SIG").into()),
        (None, None) => Exit::Signal("ABRT".into()),
    }
}
