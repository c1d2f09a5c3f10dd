//! Standard input, output and error. Reads and writes are those of threads, so that no flag of a descriptor, which other processes share,
//! is changed; and where somebody made one non-blocking, as rsync does, they wait.

use nix::poll::{poll, PollFd, PollFlags};
use std::fs::File;
use std::io::{self, ErrorKind, Read, Write};
use std::os::unix::io::{AsFd, AsRawFd};
use tokio::task::spawn_blocking;

const PIECE: usize = 1 << 16;

pub struct Stdio(Option<(File, Vec<u8>)>);

/// Standard input, or none.
pub fn input(is_null: bool) -> io::Result<Stdio> {
    if is_null {
        return Ok(Stdio(Some((File::open("/dev/null")?, Vec::new()))));
    }
    shared(io::stdin())
}

pub fn output() -> io::Result<Stdio> {
    shared(io::stdout())
}

pub fn error() -> io::Result<Stdio> {
    shared(io::stderr())
}

fn shared(fd: impl AsFd) -> io::Result<Stdio> {
    Ok(Stdio(Some((fd.as_fd().try_clone_to_owned()?.into(), Vec::new()))))
}

fn wait(file: &File, flags: PollFlags) -> io::Result<()> {
    poll(&mut [PollFd::new(file.as_raw_fd(), flags)], -1).map(drop).map_err(io::Error::from)
}

// A call, again where it was interrupted, or the descriptor is one that does not block.
fn done<T>(file: &File, flags: PollFlags, mut call: impl FnMut() -> io::Result<T>) -> io::Result<T> {
    loop {
        match call() {
            Err(error) if error.kind() == ErrorKind::Interrupted => {}
            Err(error) if error.kind() == ErrorKind::WouldBlock => wait(file, flags)?,
            done => return done,
        }
    }
}

fn write(mut file: &File, mut bytes: &[u8]) -> io::Result<()> {
    while !bytes.is_empty() {
        match done(file, PollFlags::POLLOUT, || file.write(bytes))? {
            0 => return Err(ErrorKind::WriteZero.into()),
            count => bytes = &bytes[count..],
        }
    }
    Ok(())
}

impl Stdio {
    // Does something in a thread. Where the future is dropped meanwhile, the descriptor is gone with it.
    async fn by_thread<T, F>(&mut self, what: F) -> io::Result<T>
    where
        T: Send + 'static,
        F: FnOnce(&File, &mut Vec<u8>) -> io::Result<T> + Send + 'static,
    {
        let (file, mut piece) = self.0.take().ok_or(ErrorKind::NotConnected)?;
        let call = spawn_blocking(move || {
            let outcome = what(&file, &mut piece);
            (file, piece, outcome)
        });
        let (file, piece, outcome) = call.await?;
        self.0 = Some((file, piece));
        outcome
    }

    /// The next piece; no bytes at the end.
    pub async fn read(&mut self) -> io::Result<&[u8]> {
        let call = |mut file: &File, piece: &mut Vec<u8>| {
            piece.resize(PIECE, 0);
            let count = done(file, PollFlags::POLLIN, || file.read(piece))?;
            piece.truncate(count);
            Ok(())
        };
        self.by_thread(call).await?;
        Ok(self.0.as_ref().map_or(&[], |it| &it.1))
    }

    /// Writes all of it.
    pub async fn write_all(&mut self, bytes: &[u8]) -> io::Result<()> {
        if let Some((_, piece)) = &mut self.0 {
            piece.clear();
            piece.extend_from_slice(bytes);
        }
        self.by_thread(|file, piece| write(file, piece)).await
    }
}
