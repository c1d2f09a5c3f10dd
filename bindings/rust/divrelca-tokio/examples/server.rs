//! A server whose commands send their input back: `server HOST_KEY AUTHORIZED_KEYS USER PORT`.

use divrelca_tokio::server::{serve, Config, Connection, Credential, Handler, Limits, Served};
use divrelca_tokio::{keys, Channel, Exit};
use std::error::Error;
use std::net::SocketAddr;
use std::sync::Arc;
use tokio::net::TcpListener;

struct Echo(Arc<Config>);

impl Handler for Echo {
    fn config(&self, _: SocketAddr) -> Arc<Config> {
        self.0.clone()
    }

    fn serve(&self, connection: Connection, _: SocketAddr, _: SocketAddr) -> Served<'_> {
        Box::pin(async move {
            while let Ok(offer) = connection.next_channel().await {
                if let ("session", Ok(channel)) = (offer.kind().to_owned().as_str(), offer.confirm()) {
                    tokio::spawn(echo(channel));
                }
            }
        })
    }
}

async fn echo(channel: Channel) -> std::io::Result<()> {
    while let Some(request) = channel.next_request().await {
        if request.name() == b"exec" {
            request.answer(true);
            tokio::io::copy(&mut channel.data(), &mut channel.data()).await?;
            channel.exit(&Exit::Status(0))?;
        }
    }
    Ok(())
}

#[tokio::main]
async fn main() -> Result<(), Box<dyn Error>> {
    let words: Vec<String> = std::env::args().skip(1).collect();
    let usage = "usage: server HOST_KEY AUTHORIZED_KEYS USER PORT";
    let [host, authorized, user, port] = <[String; 4]>::try_from(words).map_err(|_| usage)?;
    let mut config = Config::new(keys::private_key(&std::fs::read(host)?)?.0);
    let all = keys::authorized_keys(&std::fs::read(authorized)?)?;
    config.users = all.into_iter().map(|it| (user.clone(), Credential::Key(it))).collect();
    let listener = TcpListener::bind(("127.0.0.1", port.parse()?)).await?;
    Ok(serve(listener, Limits::default(), Echo(Arc::new(config))).await?)
}
