//! SOCKS of versions 4, 4a and 5 (RFC 1928): where a connection shall lead.

use crate::names::check_host;
use std::io::{Error, ErrorKind, Result};
use std::net::{Ipv4Addr, Ipv6Addr};
use tokio::io::{AsyncRead, AsyncReadExt, AsyncWrite, AsyncWriteExt};

const MOST_NAME: usize = 255;

/// What a program asks for.
pub struct Asked {
    pub host: String,
    pub port: u16,
    is_version_5: bool,
}

impl Asked {
    /// The answer, once it is known whether there is a connection.
    pub fn answer(&self, is_done: bool) -> &'static [u8] {
        match (self.is_version_5, is_done) {
            (true, true) => &[5, 0, 0, 1, 0, 0, 0, 0, 0, 0],
            (true, false) => &[5, 5, 0, 1, 0, 0, 0, 0, 0, 0],
            (false, true) => &[0, 90, 0, 0, 0, 0, 0, 0],
            (false, false) => &[0, 91, 0, 0, 0, 0, 0, 0],
        }
    }
}

fn bad(what: &str) -> Error {
    Error::new(ErrorKind::InvalidData, format!("SOCKS: {what}"))
}

fn checked(host: Vec<u8>) -> Result<String> {
    let host = String::from_utf8(host).map_err(|_| bad("the name is not of UTF-8"))?;
    check_host(&host).map_err(|error| bad(&error))?;
    Ok(host)
}

/// Reads the greeting of a program.
pub async fn read<S: AsyncRead + AsyncWrite + Unpin>(socket: &mut S) -> Result<Asked> {
    match socket.read_u8().await? {
        4 => read_4(socket).await,
        5 => read_5(socket).await,
        _ => Err(bad("versions 4 and 5 are there")),
    }
}

async fn until_zero<S: AsyncRead + Unpin>(socket: &mut S) -> Result<Vec<u8>> {
    let mut text = Vec::new();
    loop {
        match socket.read_u8().await? {
            0 => return Ok(text),
            byte if text.len() < MOST_NAME => text.push(byte),
            _ => return Err(bad("a name is too long")),
        }
    }
}

async fn read_4<S: AsyncRead + Unpin>(socket: &mut S) -> Result<Asked> {
    if socket.read_u8().await? != 1 {
        return Err(bad("CONNECT alone is there"));
    }
    let (port, address) = (socket.read_u16().await?, socket.read_u32().await?);
    until_zero(socket).await?; // a user's name
    let host = if (1..256).contains(&address) { checked(until_zero(socket).await?)? } else { Ipv4Addr::from(address).to_string() };
    Ok(Asked { host, port, is_version_5: false })
}

async fn read_5<S: AsyncRead + AsyncWrite + Unpin>(socket: &mut S) -> Result<Asked> {
    let mut methods = vec![0; socket.read_u8().await?.into()];
    socket.read_exact(&mut methods).await?;
    if !methods.contains(&0) {
        socket.write_all(&[5, 255]).await?;
        return Err(bad("a login is wanted, and none is there"));
    }
    socket.write_all(&[5, 0]).await?;
    let mut head = [0; 4];
    socket.read_exact(&mut head).await?;
    if head[..2] != [5, 1] {
        return Err(bad("CONNECT alone is there"));
    }
    let host = match head[3] {
        1 => Ipv4Addr::from(socket.read_u32().await?).to_string(),
        4 => Ipv6Addr::from(socket.read_u128().await?).to_string(),
        3 => {
            let mut name = vec![0; socket.read_u8().await?.into()];
            socket.read_exact(&mut name).await?;
            checked(name)?
        }
        _ => return Err(bad("the kind of address is not known")),
    };
    Ok(Asked { host, port: socket.read_u16().await?, is_version_5: true })
}

#[cfg(test)]
mod tests {
    use super::*;

    async fn asked(bytes: &[u8]) -> Option<(String, u16)> {
        let (mut here, mut there) = tokio::io::duplex(1000);
        here.write_all(bytes).await.unwrap();
        here.shutdown().await.unwrap();
        read(&mut there).await.ok().map(|it| (it.host, it.port))
    }

    #[tokio::test]
    async fn greetings() {
        assert_eq!(asked(b"\x04\x01\x00\x50\x7f\x00\x00\x01me\0").await, Some(("127.0.0.1".into(), 80)));
        assert_eq!(asked(b"\x04\x01\x00\x50\x00\x00\x00\x01\0a.org\0").await, Some(("a.org".into(), 80)));
        assert_eq!(asked(b"\x05\x01\x00\x05\x01\x00\x03\x05a.org\x00\x50").await, Some(("a.org".into(), 80)));
        assert_eq!(asked(b"\x05\x01\x00\x05\x01\x00\x01\x7f\x00\x00\x01\x00\x50").await, Some(("127.0.0.1".into(), 80)));
        for bad in [
            &b"\x06"[..],
            b"\x05\x01\x02",
            b"\x05\x01\x00\x05\x02\x00\x03\x01a\x00\x50",
            b"\x05\x01\x00\x05\x01\x00\x03\x02a;\x00\x50",
            b"\x04\x01",
        ] {
            assert_eq!(asked(bad).await, None, "{bad:?}");
        }
    }
}
