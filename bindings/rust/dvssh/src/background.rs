//! -f: the program goes on in the background once it is logged in.

use nix::sys::wait::{waitpid, WaitStatus};
use nix::unistd::{dup2, fork, setsid, ForkResult};
use std::fs::File;
use std::io::{self, Read, Write};
use std::os::unix::io::{AsRawFd, FromRawFd};
use std::process::exit;

/// The parent waits for a byte of the child's, and then ends.
pub struct Background(Option<File>);

impl Background {
    pub fn none() -> Self {
        Background(None)
    }

    /// Goes on in a child; the parent ends with status 0 once the child says so, and else with its status.
    pub fn fork() -> io::Result<Self> {
        let (reads, writes) = nix::unistd::pipe2(nix::fcntl::OFlag::O_CLOEXEC)?;
        // SAFETY: both descriptors are new, and nobody else's; and the process has one thread as yet.
        let (mut reads, writes, forked) = unsafe { (File::from_raw_fd(reads), File::from_raw_fd(writes), fork()?) };
        match forked {
            ForkResult::Child => Ok(Background(Some(writes))),
            ForkResult::Parent { child } => {
                drop(writes);
                if reads.read(&mut [0])? == 1 {
                    exit(0);
                }
                match waitpid(child, None)? {
                    WaitStatus::Exited(_, status) => exit(status),
                    _ => exit(crate::FAILED),
                }
            }
        }
    }

    /// Lets the parent go, in a session of its own and without its input.
    pub fn go(self) -> io::Result<()> {
        if let Some(mut parent) = self.0 {
            setsid()?;
            dup2(File::open("/dev/null")?.as_raw_fd(), 0)?;
            parent.write_all(&[1])?;
        }
        Ok(())
    }
}
