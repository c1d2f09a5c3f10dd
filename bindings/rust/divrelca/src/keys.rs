//! Keys, all of ssh-ed25519, in files of OpenSSH. An error has the line at which it stands; 0 is the file as a whole.

use crate::wire::{Put, Take};
use crate::Error;
use divrelca_sys as sys;

/// What a key file lacks, and in which line, counted from 1; 0 is the file as a whole.
#[derive(Clone, Copy, Debug, PartialEq, Eq)]
pub struct FileError {
    /// What was found in place of what was expected.
    pub error: Error,
    /// The line, from 1, or 0.
    pub line: usize,
}

impl FileError {
    /// Whether the file has no key of the host, and nothing else is wrong with it.
    pub fn is_no_key(&self) -> bool {
        self.error == Error::FileAnyHostKey
    }
}

impl std::fmt::Display for FileError {
    fn fmt(&self, f: &mut std::fmt::Formatter<'_>) -> std::fmt::Result {
        match self.line {
            0 => write!(f, "{}", self.error),
            line => write!(f, "{} (line {line})", self.error),
        }
    }
}

impl std::error::Error for FileError {
    fn source(&self) -> Option<&(dyn std::error::Error + 'static)> {
        Some(&self.error)
    }
}

fn check(code: i32, line: usize) -> Result<(), FileError> {
    Error::check(code).map_err(|error| FileError { error, line })
}

/// The seed and the public key of a private key file without a passphrase.
///
/// # Errors
/// Where the text is none.
pub fn private_key(text: &[u8]) -> Result<([u8; 32], [u8; 32]), FileError> {
    let (mut seed, mut key, mut line) = ([0; 32], [0; 32], 0);
    // SAFETY: the text is read during the call, and each pointer has room for its type.
    let code = unsafe { sys::dv_private_key(text.as_ptr(), text.len(), &mut seed, &mut key, &mut line) };
    check(code, line).map(|()| (seed, key))
}

/// The public keys of a file of the form of authorized_keys. Malformed lines and lines with options let nobody in: [`skipped_users`] has
/// them.
///
/// # Errors
/// Where there is no key.
pub fn authorized_keys(text: &[u8]) -> Result<Vec<[u8; 32]>, FileError> {
    let (mut keys, mut count) = (Vec::new(), 1);
    while keys.len() < count {
        let (mut key, mut line) = ([0; 32], 0);
        // SAFETY: as above.
        let code = unsafe { sys::dv_authorized_key(text.as_ptr(), text.len(), keys.len(), &mut key, &mut count, &mut line) };
        check(code, line)?;
        keys.push(key);
    }
    Ok(keys)
}

/// The one key that a file of the form of known_hosts has for this host, "example.org", or "[example.org]:2222" where the port is not 22.
/// A host of no bytes stands for any. Malformed lines are passed over: [`skipped_hosts`] has them.
///
/// # Errors
/// Where there is no such key, or more than one, or it is revoked, or where a line that may revoke a key is malformed.
pub fn known_host(text: &[u8], host: &str) -> Result<[u8; 32], FileError> {
    let (mut key, mut line) = ([0; 32], 0);
    // SAFETY: as above.
    let code = unsafe { sys::dv_known_host(text.as_ptr(), text.len(), host.as_ptr(), host.len(), &mut key, &mut line) };
    check(code, line).map(|()| key)
}

/// All keys that such a file has for this host, at least one: a host has two while one takes the place of the other.
///
/// # Errors
/// Those of [`known_host`], but for more than one key.
pub fn known_host_keys(text: &[u8], host: &str) -> Result<Vec<[u8; 32]>, FileError> {
    let mut keys = Vec::new();
    loop {
        let (mut key, mut line) = ([0; 32], 0);
        // SAFETY: as above.
        let code =
            unsafe { sys::dv_known_host_key(text.as_ptr(), text.len(), host.as_ptr(), host.len(), keys.len(), &mut key, &mut line) };
        match check(code, line) {
            Ok(()) => keys.push(key),
            Err(fault) if fault.error == Error::FileAnyHostKey && !keys.is_empty() => return Ok(keys),
            Err(fault) => return Err(fault),
        }
    }
}

/// The lines of known_hosts that are passed over for this host, each with what was expected there. Each step goes over the text up to its
/// line.
pub fn skipped_hosts<'a>(text: &'a [u8], host: &'a str) -> impl Iterator<Item = FileError> + 'a {
    skipped(move |place, line| {
        // SAFETY: as above.
        unsafe { sys::dv_skipped_host(text.as_ptr(), text.len(), host.as_ptr(), host.len(), place, line) }
    })
}

/// The same of authorized_keys.
pub fn skipped_users(text: &[u8]) -> impl Iterator<Item = FileError> + '_ {
    skipped(move |place, line| {
        // SAFETY: as above.
        unsafe { sys::dv_skipped_user(text.as_ptr(), text.len(), place, line) }
    })
}

fn skipped(call: impl Fn(usize, &mut usize) -> i32) -> impl Iterator<Item = FileError> {
    (0..).map_while(move |place| {
        let mut line = 0;
        let code = call(place, &mut line);
        check(code, line).err()
    })
}

/// What people compare of a key as it goes over the wire: "SHA256:" and 43 base64 digits, as OpenSSH shows it.
pub fn fingerprint(key: &[u8]) -> String {
    let mut digits = [0; 43];
    // SAFETY: the key is read during the call, and there is room for 43 digits.
    unsafe { sys::dv_fingerprint(key.as_ptr(), key.len(), &mut digits) };
    b"SHA256:".iter().chain(&digits).copied().map(char::from).collect()
}

/// The public key of a seed.
pub fn public_key(seed: &[u8; 32]) -> [u8; 32] {
    let mut key = [0; 32];
    // SAFETY: both pointers are of 32 bytes.
    unsafe { sys::dv_public_key(seed, &mut key) };
    key
}

/// The key that a blob has, as `Shown` and public key files hold it: the name of its type, and its bytes. None where it is no key of
/// ssh-ed25519.
pub fn of_blob(blob: &[u8]) -> Option<[u8; 32]> {
    let mut rest = Take(blob);
    let (kind, key) = (rest.string()?, rest.string()?);
    if kind == b"ssh-ed25519" && rest.0.is_empty() {
        key.try_into().ok()
    } else {
        None
    }
}

/// The blob of a key, as `of_blob` reads it.
pub fn to_blob(key: &[u8; 32]) -> Vec<u8> {
    Put::new().string("ssh-ed25519").string(key).done()
}
