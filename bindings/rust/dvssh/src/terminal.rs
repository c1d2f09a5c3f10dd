//! The terminal: raw mode, its size, and a password.

use divrelca_tokio::client::Size;
use nix::libc;
use nix::sys::termios::{cfmakeraw, tcgetattr, tcsetattr, LocalFlags, SetArg, Termios};
use std::fs::File;
use std::io::{self, Read, Write};
use std::os::unix::io::{AsRawFd, RawFd};
use zeroize::Zeroizing;

nix::ioctl_read_bad!(read_size, libc::TIOCGWINSZ, libc::winsize);

/// The size of the terminal on standard input, output or error; zeros where there is none.
pub fn size() -> Size {
    let mut size = libc::winsize { ws_row: 0, ws_col: 0, ws_xpixel: 0, ws_ypixel: 0 };
    // SAFETY: the call writes a winsize.
    let _ = (0..3).any(|fd| unsafe { read_size(fd, &mut size) }.is_ok());
    Size { columns: size.ws_col.into(), rows: size.ws_row.into(), width: size.ws_xpixel.into(), height: size.ws_ypixel.into() }
}

/// Whether a descriptor is a terminal.
pub fn is_terminal(fd: RawFd) -> bool {
    nix::unistd::isatty(fd).unwrap_or(false)
}

/// A change of a terminal that is undone with this.
pub struct Changed {
    fd: RawFd,
    before: Termios,
    // holds the descriptor open
    _tty: Option<File>,
}

impl Changed {
    /// Standard input as it comes, without echo, lines or signals; none where it is no terminal.
    pub fn raw() -> Option<Self> {
        let before = tcgetattr(0).ok()?;
        let mut raw = before.clone();
        cfmakeraw(&mut raw);
        tcsetattr(0, SetArg::TCSADRAIN, &raw).ok()?;
        Some(Changed { fd: 0, before, _tty: None })
    }

    // The terminal of a password: no echo, and ^C is a signal still.
    fn hidden(tty: File) -> io::Result<Self> {
        let before = tcgetattr(tty.as_raw_fd())?;
        let mut hidden = before.clone();
        hidden.local_flags.remove(LocalFlags::ECHO);
        tcsetattr(tty.as_raw_fd(), SetArg::TCSAFLUSH, &hidden)?;
        Ok(Changed { fd: tty.as_raw_fd(), before, _tty: Some(tty) })
    }
}

impl Drop for Changed {
    fn drop(&mut self) {
        let _ = tcsetattr(self.fd, SetArg::TCSADRAIN, &self.before);
    }
}

/// Asks for a password at the terminal of the process. Where the future is dropped, as after ^C, the terminal is as before.
pub async fn password(prompt: &str) -> io::Result<Zeroizing<String>> {
    let mut tty = File::options().read(true).write(true).open("/dev/tty")?;
    tty.write_all(prompt.as_bytes())?;
    let hidden = Changed::hidden(tty.try_clone()?)?;
    let mut asks = tty.try_clone()?;
    let line = tokio::task::spawn_blocking(move || read_line(&mut asks)).await.map_err(io::Error::from)?;
    drop(hidden);
    tty.write_all(b"\n")?;
    line
}

/// Whether the process has a terminal, at which somebody can be asked.
pub fn is_there() -> bool {
    File::options().read(true).write(true).open("/dev/tty").is_ok()
}

/// Asks for a line at the terminal of the process, which shows what is typed.
pub async fn line(prompt: &str) -> io::Result<String> {
    let mut tty = File::options().read(true).write(true).open("/dev/tty")?;
    tty.write_all(prompt.as_bytes())?;
    let line = tokio::task::spawn_blocking(move || read_line(&mut tty)).await.map_err(io::Error::from)?;
    Ok(line?.trim().to_owned())
}

fn read_line(tty: &mut File) -> io::Result<Zeroizing<String>> {
    let mut line = Zeroizing::new(Vec::with_capacity(1024));
    let mut byte = [0];
    while tty.read(&mut byte)? == 1 && byte != [b'\n'] && line.len() < 1000 {
        line.push(byte[0]);
    }
    let text = std::str::from_utf8(&line).map_err(|_| io::Error::new(io::ErrorKind::InvalidData, "it is no UTF-8"))?;
    Ok(Zeroizing::new(text.to_owned()))
}
