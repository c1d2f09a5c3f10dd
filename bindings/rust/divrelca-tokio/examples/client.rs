//! Runs a command at a server: `client HOST USER KEY COMMAND`. The host's key has to stand in ~/.ssh/known_hosts.

use divrelca_tokio::client::{connect, Config};
use divrelca_tokio::{keys, Exit};
use std::error::Error;
use tokio::net::TcpStream;

#[tokio::main(flavor = "current_thread")]
async fn main() -> Result<(), Box<dyn Error>> {
    let words: Vec<String> = std::env::args().skip(1).collect();
    let [host, user, key, command] = <[String; 4]>::try_from(words).map_err(|_| "usage: client HOST USER KEY COMMAND")?;
    let known = std::fs::read(format!("{}/.ssh/known_hosts", std::env::var("HOME")?))?;
    let mut config = Config::new(keys::known_host_keys(&known, &host)?);
    config.user_seed = Some(keys::private_key(&std::fs::read(key)?)?.0.into());
    let connection = connect(TcpStream::connect((host.as_str(), 22)).await?, &config, &user, None).await?;
    let session = connection.session().await?;
    session.exec(command).await?;
    session.end()?; // it gets no input
    tokio::io::copy(&mut session.data(), &mut tokio::io::stdout()).await?;
    match session.wait().await? {
        Some(Exit::Status(0)) => Ok(()),
        other => Err(format!("the command ended by {other:?}").into()),
    }
}
