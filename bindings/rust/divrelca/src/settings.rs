//! What ends are made of, and random bytes.

use divrelca_sys::dv_material;
use std::fmt;
use zeroize::Zeroize;

/// Random bytes of one exchange of keys, each used once. They are wiped where this is dropped.
pub struct Material {
    /// The cookie of a KEXINIT, which the peer sees.
    pub cookie: [u8; 16],
    /// The secret of an exchange of keys.
    pub secret: [u8; 32],
}

impl Material {
    /// A fresh pair of the system's random source.
    ///
    /// # Errors
    /// Where the system has no random bytes.
    #[cfg(feature = "getrandom")]
    pub fn random() -> Result<Self, getrandom::Error> {
        let mut fresh = Material { cookie: [0; 16], secret: [0; 32] };
        getrandom::getrandom(&mut fresh.cookie)?;
        getrandom::getrandom(&mut fresh.secret)?;
        Ok(fresh)
    }

    pub(crate) fn in_c(&self) -> dv_material {
        dv_material { cookie: self.cookie, secret: self.secret }
    }
}

impl Drop for Material {
    fn drop(&mut self) {
        self.secret.zeroize();
    }
}

impl fmt::Debug for Material {
    fn fmt(&self, f: &mut fmt::Formatter<'_>) -> fmt::Result {
        f.debug_struct("Material").finish_non_exhaustive()
    }
}

/// What lets a user in.
#[derive(Clone, Copy)]
pub enum Login<'a> {
    /// A signature by this public key of ssh-ed25519.
    Key(&'a [u8; 32]),
    /// This password.
    Password(&'a [u8]),
}

impl fmt::Debug for Login<'_> {
    fn fmt(&self, f: &mut fmt::Formatter<'_>) -> fmt::Result {
        match self {
            Login::Key(key) => f.debug_tuple("Key").field(key).finish(),
            Login::Password(_) => f.write_str("Password(..)"),
        }
    }
}

/// One user and one thing that lets the user in. A user may stand in a list several times.
#[derive(Clone, Copy, Debug)]
pub struct User<'a> {
    /// The name that a client gives.
    pub name: &'a [u8],
    /// What lets this user in.
    pub login: Login<'a>,
}

/// Which encryptions are offered: aes128-gcm@openssh.com, aes256-gcm@openssh.com, or both, the second one first.
#[derive(Clone, Copy, Debug, PartialEq, Eq)]
#[repr(u32)]
pub enum Ciphers {
    /// aes128-gcm@openssh.com.
    Aes128 = 1,
    /// aes256-gcm@openssh.com.
    Aes256 = 2,
    /// Both.
    Both = 3,
}

/// Which methods of authentication a server names and takes.
#[derive(Clone, Copy, Debug, PartialEq, Eq)]
#[repr(u32)]
pub enum Methods {
    /// `publickey`.
    Key = 1,
    /// `password`.
    Password = 2,
    /// Both.
    Both = 3,
}

/// What a server is made of. `new` has the defaults, and each field can be set then.
#[derive(Clone, Copy)]
#[non_exhaustive]
pub struct ServerSettings<'a> {
    /// What the version line has after `SSH-2.0-`.
    pub software: &'a [u8],
    /// The seed of the host key.
    pub host_seed: &'a [u8; 32],
    /// Whom the server lets in, besides those of `Server::set_user`.
    pub users: &'a [User<'a>],
    /// After so many packets sent under one key the next exchange of keys is due: 64 to 2^31.
    pub epoch_limit: u32,
    /// How many requests for authentication may fail: 1 to 20.
    pub tries: u32,
    /// Which methods are named and taken.
    pub methods: Methods,
    /// Which encryptions are offered.
    pub ciphers: Ciphers,
    /// The names of the algorithms of users' keys, with commas, that a client is told (`server-sig-algs`, RFC 8308); with no bytes it is told
    /// nothing. What is taken is what the program accepts.
    pub user_algorithms: &'a [u8],
}

impl<'a> ServerSettings<'a> {
    /// The settings that OpenSSH's defaults come to: exchanges of keys after 2^20 packets, six tries, both methods, both ciphers.
    pub fn new(host_seed: &'a [u8; 32], users: &'a [User<'a>]) -> Self {
        let (methods, ciphers) = (Methods::Both, Ciphers::Both);
        let user_algorithms = b"";
        ServerSettings { software: b"Divrelca_Rust", host_seed, users, epoch_limit: 1 << 20, tries: 6, methods, ciphers, user_algorithms }
    }
}

impl fmt::Debug for ServerSettings<'_> {
    fn fmt(&self, f: &mut fmt::Formatter<'_>) -> fmt::Result {
        let mut shown = f.debug_struct("ServerSettings");
        shown.field("users", &self.users).field("epoch_limit", &self.epoch_limit).field("tries", &self.tries);
        shown.field("methods", &self.methods).field("ciphers", &self.ciphers).finish_non_exhaustive()
    }
}

/// What a client is made of. `new` has the defaults, and each field can be set then.
#[derive(Clone, Copy)]
#[non_exhaustive]
pub struct ClientSettings<'a> {
    /// What the version line has after `SSH-2.0-`.
    pub software: &'a [u8],
    /// The public keys of the one host to trust, 1 to 16: any one of them is enough. `keys::known_host_keys` has those of a host.
    pub host_keys: &'a [[u8; 32]],
    /// The seed of the user's key; none where the user has no key.
    pub user_seed: Option<&'a [u8; 32]>,
    /// After so many packets sent under one key the next exchange of keys is due: 64 to 2^31.
    pub epoch_limit: u32,
    /// Which encryptions are offered.
    pub ciphers: Ciphers,
    /// The names of the algorithms of host keys that are offered, the preferred one first; where there are none, ssh-ed25519 alone. A host
    /// with a key of another one is trusted only by an answer of the program.
    pub host_algorithms: &'a [&'a [u8]],
    /// Whether the server may announce extensions (`Event::Extensions`).
    pub takes_extensions: bool,
}

impl<'a> ClientSettings<'a> {
    /// A client that trusts one host, by any one of these keys.
    pub fn new(host_keys: &'a [[u8; 32]], user_seed: Option<&'a [u8; 32]>) -> Self {
        let (software, ciphers, host_algorithms) = (b"Divrelca_Rust", Ciphers::Both, &[]);
        ClientSettings { software, host_keys, user_seed, epoch_limit: 1 << 20, ciphers, host_algorithms, takes_extensions: false }
    }
}

impl fmt::Debug for ClientSettings<'_> {
    fn fmt(&self, f: &mut fmt::Formatter<'_>) -> fmt::Result {
        let mut shown = f.debug_struct("ClientSettings");
        shown.field("host_keys", &self.host_keys).field("has_user_seed", &self.user_seed.is_some());
        shown.field("epoch_limit", &self.epoch_limit).field("ciphers", &self.ciphers).finish_non_exhaustive()
    }
}
