//! The client's agent: a socket for the commands of a session, in a folder of its own.

use divrelca_tokio::server::Connection;
use std::ffi::OsStr;
use std::fs::Permissions;
use std::io;
use std::os::unix::ffi::OsStrExt;
use std::os::unix::fs::PermissionsExt;
use std::path::{Path, PathBuf};
use tokio::io::copy_bidirectional;
use tokio::net::UnixListener;
use tokio::task::{JoinHandle, JoinSet};

const MOST_AT_ONCE: usize = 32;

// A folder of mode 0700, by a name that nobody can guess.
fn new_folder() -> io::Result<PathBuf> {
    let mut name = *b"/tmp/dvsshd-XXXXXXXXXX\0";
    // SAFETY: the call writes over the letters X, and a 0 ends the name.
    if unsafe { libc::mkdtemp(name.as_mut_ptr().cast()) }.is_null() {
        return Err(io::Error::last_os_error());
    }
    Ok(OsStr::from_bytes(&name[..name.len() - 1]).into())
}

/// A socket that leads to the client's agent. It and its folder are removed with this.
pub struct Agent {
    folder: PathBuf,
    socket: PathBuf,
    task: Option<JoinHandle<()>>,
}

impl Agent {
    /// Listens on a socket of mode 0600, in a new folder of mode 0700.
    pub fn open(connection: Connection) -> io::Result<Self> {
        let folder = new_folder()?;
        let socket = folder.join("agent");
        let mut agent = Agent { folder, socket, task: None };
        let listener = UnixListener::bind(&agent.socket)?;
        std::fs::set_permissions(&agent.socket, Permissions::from_mode(0o600))?;
        agent.task = Some(tokio::spawn(listen(listener, connection)));
        Ok(agent)
    }

    /// What SSH_AUTH_SOCK names.
    pub fn socket(&self) -> &Path {
        &self.socket
    }
}

impl Drop for Agent {
    fn drop(&mut self) {
        if let Some(task) = &self.task {
            task.abort();
        }
        let _ = std::fs::remove_file(&self.socket);
        let _ = std::fs::remove_dir(&self.folder);
    }
}

async fn listen(listener: UnixListener, connection: Connection) {
    let mut carried = JoinSet::new(); // which ends with this task
    loop {
        tokio::select! {
            accepted = listener.accept(), if carried.len() < MOST_AT_ONCE => match accepted {
                Ok((mut socket, _)) => {
                    let connection = connection.clone();
                    carried.spawn(async move {
                        if let Ok(channel) = connection.agent().await {
                            let _ = copy_bidirectional(&mut socket, &mut channel.data()).await;
                        }
                    });
                }
                Err(_) => return,
            },
            Some(_) = carried.join_next() => {}
        }
    }
}
