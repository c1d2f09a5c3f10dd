//! dvsshd: a server of SSH-2 for one user, the one that it runs as.
//!
//! It listens on an address and a port, and serves all connections in one process, or serves one on standard input and output (-i). It
//! has commands and a shell, with a terminal or without, the subsystem sftp by OpenSSH's sftp-server, ports both ways, the client's
//! agent, and several channels at once. Keys are read and checked at the start, and authorized_keys for each connection anew; its options
//! are obeyed. Standard error has a line for each who comes in, and for each connection on which nobody did. What a peer said is escaped
//! there.

mod agent;
mod authorized;
mod descriptor;
mod expiry;
mod forward;
mod log;
mod server;
mod session;
mod words;

use descriptor::Descriptor;
use divrelca_tokio::server::{accept, serve, Handler, Limits};
use divrelca_tokio::Joined;
use log::say;
use server::Server;
use std::io;
use std::os::unix::io::AsFd;
use std::time::Duration;
use tokio::net::TcpListener;
use words::Words;

type Failure = Box<dyn std::error::Error + Send + Sync>;

fn limits(words: &Words) -> Limits {
    let mut limits = Limits::default();
    if let Some([begin, rate, full]) = words.startups {
        (limits.begin, limits.rate, limits.full) = (begin, rate, full);
    }
    limits.of_address = words.of_address.unwrap_or(limits.of_address);
    limits
}

async fn run(words: Words) -> Result<(), Failure> {
    let server = Server::new(&words)?;
    if words.is_inetd {
        let input = Descriptor::new(io::stdin().as_fd().try_clone_to_owned()?)?;
        let output = Descriptor::new(io::stdout().as_fd().try_clone_to_owned()?)?;
        match accept(Joined(input, output), &server.config_for(None)).await {
            Ok(connection) => server.serve_all(connection, None).await,
            Err(why) => server::reject("standard input", &why),
        }
        return Ok(());
    }
    let (address, port) = (words.address.as_str(), words.port);
    let listener = TcpListener::bind((address, port)).await.map_err(|error| format!("{address} port {port}: {error}"))?;
    say(&format!("listens on {address} port {port}"));
    Ok(serve(listener, limits(&words), server).await?)
}

fn main() {
    // what this process inherited besides standard input, output and error is no command's; all that it opens itself is close-on-exec
    // SAFETY: the call marks descriptors, and closes none.
    unsafe { libc::syscall(libc::SYS_close_range, 3, libc::c_uint::MAX, libc::CLOSE_RANGE_CLOEXEC) };
    let whole = || {
        let words = Words::read(lexopt::Parser::from_env())?;
        let runtime = tokio::runtime::Builder::new_multi_thread().worker_threads(2).enable_all().build()?;
        let outcome = runtime.block_on(run(words));
        runtime.shutdown_timeout(Duration::from_secs(1));
        outcome
    };
    if let Err(error) = whole() {
        say(&error.to_string());
        std::process::exit(255);
    }
}
