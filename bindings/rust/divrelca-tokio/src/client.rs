//! A client.

use crate::driver::{start, Handle};
use crate::state::State;
use crate::table::{Login, Table};
use crate::{Agent, AgentKey, Channel, Decide, Error, Keepalive, Offer, Result};
use divrelca::wire::{Put, Take};
use divrelca::{Ask, Ciphers, Client, ClientSettings, Material};
use std::fmt;
use std::future::Future;
use std::io;
use std::sync::Arc;
use tokio::io::{AsyncRead, AsyncWrite};
use tokio::sync::oneshot;
use zeroize::Zeroizing;

pub use crate::session::{Session, Size};

// The most channels of a server that a client takes, each of a connection to a port.
const MOST_CHANNELS: usize = 256;

/// What a client is made of. `new` has the defaults, and each field can be set then.
#[derive(Clone)]
#[non_exhaustive]
pub struct Config {
    /// The keys of the one host to trust: any one of them is enough.
    pub host_keys: Vec<[u8; 32]>,
    /// Decides on a host key that is not among them, in its own time. A host that is known by another key is no new host: where keys are known, ask
    /// nobody.
    pub trust: Option<Decide>,
    /// The seed of the user's key.
    pub user_seed: Option<Zeroizing<[u8; 32]>>,
    /// Which encryptions are offered.
    pub ciphers: Ciphers,
    /// After so many packets sent under one key keys are exchanged: 64 to 2^31.
    pub epoch_limit: u32,
    /// Whether a silent server is asked for a sign of life.
    pub keepalive: Option<Keepalive>,
}

impl Config {
    /// A client that trusts the host of these keys.
    pub fn new(host_keys: impl Into<Vec<[u8; 32]>>) -> Self {
        Config { host_keys: host_keys.into(), trust: None, user_seed: None, ciphers: Ciphers::Both, epoch_limit: 1 << 20, keepalive: None }
    }
}

impl fmt::Debug for Config {
    fn fmt(&self, f: &mut fmt::Formatter<'_>) -> fmt::Result {
        let mut shown = f.debug_struct("Config");
        shown.field("host_keys", &self.host_keys).field("asks", &self.trust.is_some()).field("has_user_seed", &self.user_seed.is_some()).field("ciphers", &self.ciphers);
        shown.field("epoch_limit", &self.epoch_limit).field("keepalive", &self.keepalive).finish()
    }
}

/// A connection. Its clones, sessions and channels hold it open.
#[derive(Clone, Debug)]
pub struct Connection(Arc<Handle>);

/// What came of a login.
#[derive(Clone, Debug, PartialEq, Eq)]
#[non_exhaustive]
pub enum Outcome {
    /// The user is let in.
    LetIn,
    /// Not let in; the methods that can go on, with commas.
    Failed(String),
    /// The server would look at a signature by this key.
    KeyOk {
        /// The name of the algorithm.
        algorithm: Vec<u8>,
        /// The key, as it goes over the wire.
        key: Vec<u8>,
    },
}

impl Outcome {
    /// Whether a login by this method can follow.
    pub fn allows(&self, method: &str) -> bool {
        matches!(self, Outcome::Failed(methods) if methods.split(',').any(|it| it == method))
    }
}

/// Connects over a stream and exchanges keys: the host is the one that is trusted, and a login is next. For a limit of time put it into
/// `tokio::time::timeout`.
///
/// # Errors
/// Where the peer is not that host, or the connection is lost.
pub async fn handshake<S>(socket: S, config: &Config) -> Result<Connection>
where
    S: AsyncRead + AsyncWrite + Unpin + Send + 'static,
{
    let mut padding = [0; 32];
    getrandom::getrandom(&mut padding)?;
    let mut settings = ClientSettings::new(&config.host_keys, config.user_seed.as_deref());
    (settings.software, settings.ciphers, settings.epoch_limit) = (b"Divrelca_tokio", config.ciphers, config.epoch_limit);
    let end = Client::new(&settings, &Material::random()?, &padding)?;
    let (login, ready) = oneshot::channel();
    let table = Table { is_client: true, most_channels: MOST_CHANNELS, login: Some(login), ..Table::default() };
    let state = State::new(end.into(), table, None, config.trust.clone())?;
    let connection = Connection(Arc::new(start(socket, state, config.keepalive)));
    ready.await.map_err(|_| connection.0.why_over())?;
    Ok(connection)
}

/// Connects and logs in, by the key of the configuration and then by the password.
///
/// # Errors
/// As of `handshake`, and `NotLetIn`.
pub async fn connect<S>(socket: S, config: &Config, user: &str, password: Option<&str>) -> Result<Connection>
where
    S: AsyncRead + AsyncWrite + Unpin + Send + 'static,
{
    let connection = handshake(socket, config).await?;
    let mut outcome = connection.login_none(user).await?;
    if config.user_seed.is_some() && outcome.allows("publickey") {
        outcome = connection.login_key(user).await?;
    }
    if let (Some(password), true) = (password, outcome.allows("password")) {
        outcome = connection.login_password(user, password).await?;
    }
    match outcome {
        Outcome::LetIn => Ok(connection),
        Outcome::Failed(methods) => Err(Error::NotLetIn(methods)),
        Outcome::KeyOk { .. } => Err(Error::NotLetIn(String::new())),
    }
}

impl Connection {
    async fn login(&self, ask: Ask<'_>) -> Result<Outcome> {
        let hears = {
            let (login, hears) = oneshot::channel();
            let mut state = self.0.link.lock();
            state.check()?;
            state.post(&ask)?;
            state.table.login = Some(login);
            state.kick();
            hears
        };
        match hears.await.map_err(|_| self.0.why_over())? {
            Login::Failed(methods) => Ok(Outcome::Failed(methods)),
            Login::KeyOk(algorithm, key) => Ok(Outcome::KeyOk { algorithm, key }),
            Login::LetIn(..) | Login::Ready => Ok(Outcome::LetIn),
        }
    }

    /// A login by a key that something else holds: an agent, a security key, a service. The key is given as it goes over the wire. The server is
    /// asked first whether it would take the key; only then `sign` signs the text that it is given, and answers the signature as it goes over
    /// the wire. Where that takes long the server may give up.
    ///
    /// # Errors
    /// Where the connection is over, or the key does not sign.
    pub async fn login_by<F, S>(&self, user: &str, algorithm: &str, key: &[u8], sign: F) -> Result<Outcome>
    where
        F: FnOnce(Vec<u8>) -> S,
        S: Future<Output = io::Result<Vec<u8>>>,
    {
        let (user, algorithm) = (user.as_bytes(), algorithm.as_bytes());
        let outcome = self.login(Ask::LoginProbeBy { user, algorithm, key }).await?;
        if !matches!(&outcome, Outcome::KeyOk { algorithm: named, key: shown } if named == algorithm && shown == key) {
            return Ok(outcome);
        }
        let text = self.0.link.lock().end.text_to_sign(user, algorithm, key)?;
        let signature = sign(text).await?;
        match self.0.link.lock().end.set_signature(user, algorithm, key, &signature) {
            Ok(()) | Err(divrelca::Error::SignatureKnown) => {}
            Err(error) => return Err(error.into()),
        }
        self.login(Ask::LoginKeyBy { user, algorithm, key }).await
    }

    /// The same by a key of an agent.
    ///
    /// # Errors
    /// Where the connection is over, or the agent does not sign.
    pub async fn login_by_agent(&self, user: &str, agent: &Agent, key: &AgentKey) -> Result<Outcome> {
        let algorithm = key.algorithm().ok_or(Error::NotLetIn(String::new()))?;
        self.login_by(user, algorithm, &key.blob, |text| async move { agent.sign(&key.blob, algorithm, &text).await }).await
    }

    /// A login by no method, which shows what methods there are.
    ///
    /// # Errors
    /// Where the connection is over.
    pub async fn login_none(&self, user: &str) -> Result<Outcome> {
        self.login(Ask::LoginNone { user: user.as_bytes() }).await
    }

    /// A login by the key of the configuration.
    ///
    /// # Errors
    /// Where the connection is over, or there is no key.
    pub async fn login_key(&self, user: &str) -> Result<Outcome> {
        self.login(Ask::LoginKey { user: user.as_bytes() }).await
    }

    /// A login by a password.
    ///
    /// # Errors
    /// Where the connection is over.
    pub async fn login_password(&self, user: &str, password: &str) -> Result<Outcome> {
        self.login(Ask::LoginPassword { user: user.as_bytes(), password: password.as_bytes() }).await
    }

    /// What the server wants to be shown, once. It may hold what steers a terminal.
    pub fn take_banner(&self) -> String {
        std::mem::take(&mut self.0.link.lock().table.banner)
    }

    /// Opens a session, for one command, shell or subsystem.
    ///
    /// # Errors
    /// Where the server refuses it, or the connection is over.
    pub async fn session(&self) -> Result<Session> {
        Ok(Session(self.0.open("session", Vec::new()).await?))
    }

    /// Opens a stream to a host and a port, from the server (RFC 4254, 7.2).
    ///
    /// # Errors
    /// Where the server refuses it, or the connection is over.
    pub async fn direct(&self, host: &str, port: u16) -> Result<Channel> {
        let rest = Put::new().string(host).number(port.into()).string("127.0.0.1").number(0).done();
        self.0.open("direct-tcpip", rest).await
    }

    /// Has the server listen on a port, 0 for any, and answers which it is. Connections there come as channels: `next_channel`.
    ///
    /// # Errors
    /// Where the server refuses it, or the connection is over.
    pub async fn forward(&self, address: &str, port: u16) -> Result<u16> {
        self.0.link.lock().table.takes_channels = true;
        let done = self.global("tcpip-forward", address, port).await?.ok_or(Error::RequestFailed("tcpip-forward"))?;
        Ok(Take(&done).number().filter(|_| port == 0).map_or(port, |it| it as u16))
    }

    /// Has the server listen there no more.
    ///
    /// # Errors
    /// Where the server refuses it, or the connection is over.
    pub async fn cancel_forward(&self, address: &str, port: u16) -> Result<()> {
        self.global("cancel-tcpip-forward", address, port).await?.map(drop).ok_or(Error::RequestFailed("cancel-tcpip-forward"))
    }

    async fn global(&self, name: &str, address: &str, port: u16) -> Result<Option<Vec<u8>>> {
        let (hears, heard) = oneshot::channel();
        self.0.link.lock().global(name, &Put::new().string(address).number(port.into()).done(), Some(hears))?;
        heard.await.map_err(|_| self.0.why_over())
    }

    /// The next channel that the server opens, after `forward` or `Session::agent`: `Offer::kind` is its type, and `Forwarded::of` says of
    /// which port it is. One that was not asked for is to be refused.
    ///
    /// # Errors
    /// Where the connection is over.
    pub async fn next_channel(&self) -> Result<Offer> {
        Offer::next(&self.0).await
    }

    /// Waits until the connection is over, and tells why.
    pub async fn over(&self) -> Error {
        self.0.over().await;
        self.0.why_over()
    }

    /// Says good-bye, and waits until that is written.
    pub async fn close(&self) {
        self.0.close().await;
    }
}

/// Where a connection came to, and from where: what `direct-tcpip` and `forwarded-tcpip` say.
#[derive(Clone, Debug, PartialEq, Eq)]
pub struct Forwarded {
    /// The host or address that it is for.
    pub host: String,
    /// The port that it is for.
    pub port: u16,
    /// The address that it came from.
    pub origin: String,
    /// The port that it came from.
    pub origin_port: u16,
}

impl Forwarded {
    /// Reads what an offer says; none where that is not of this form, or its names are no text.
    pub fn of(rest: &[u8]) -> Option<Self> {
        let mut rest = Take(rest);
        let (host, port) = (rest.text()?, rest.number()?.try_into().ok()?);
        let (origin, origin_port) = (rest.text()?, rest.number()?.try_into().ok()?);
        let is_plain = |it: &str| !it.chars().any(char::is_control);
        let is_read = rest.0.is_empty() && is_plain(host) && is_plain(origin);
        is_read.then(|| Forwarded { host: host.into(), port, origin: origin.into(), origin_port })
    }
}
