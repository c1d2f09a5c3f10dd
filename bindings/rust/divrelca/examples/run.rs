//! Runs a command at a server over `std::io`: `run HOST:PORT HOST_KEY.pub USER KEY COMMAND`. Standard output has what the
//! command writes; the exit status is the command's.

use divrelca::{keys, Ask, Client, ClientSettings, Event, Material};
use std::error::Error;
use std::fs::{read, File};
use std::io::{self, Read, Write};
use std::net::TcpStream;

fn random<const N: usize>() -> io::Result<[u8; N]> {
    let mut bytes = [0; N];
    File::open("/dev/urandom")?.read_exact(&mut bytes)?;
    Ok(bytes)
}

fn material() -> io::Result<Material> {
    Ok(Material { cookie: random()?, secret: random()? })
}

// A string of SSH.
fn string(text: &str) -> Vec<u8> {
    let mut bytes = (text.len() as u32).to_be_bytes().to_vec();
    bytes.extend_from_slice(text.as_bytes());
    bytes
}

struct Run<'a> {
    user: &'a str,
    command: &'a str,
    status: Option<u8>,
}

impl Run<'_> {
    // Hears what the last take did, and queues what comes of it.
    fn hear(&mut self, client: &mut Client) -> Result<(), Box<dyn Error>> {
        let (mut consumed, mut ask) = (None, None);
        let (user, exec) = (self.user.as_bytes(), string(self.command));
        match client.event() {
            Event::Completed { position: 1 } => ask = Some(Ask::Service),
            Event::Service => ask = Some(Ask::LoginKey { user }),
            Event::Authenticated { .. } => ask = Some(Ask::Open { kind: b"session", window: 1 << 20, max_packet: 32768, rest: b"" }),
            Event::Confirmed { channel, .. } => ask = Some(Ask::Request { channel, name: b"exec", want: true, rest: &exec }),
            Event::Data { channel, kind, body } => {
                match kind {
                    None => io::stdout().write_all(body)?,
                    Some(_) => io::stderr().write_all(body)?,
                }
                consumed = Some((channel, body.len()));
            }
            Event::Requested { name: b"exit-status", rest, .. } => self.status = rest.last().copied(),
            Event::Closed { .. } => ask = Some(Ask::Disconnect { description: b"done" }),
            Event::Failed { .. } => return Err("the user is not let in".into()),
            Event::Refused { name, .. } => return Err(format!("the server is refused: {}", String::from_utf8_lossy(name)).into()),
            _ => {}
        }
        match (ask, consumed) {
            (Some(ask), _) => client.queue(&ask)?,
            (None, Some((channel, bytes))) => client.consume(channel, bytes)?,
            (None, None) => client.decline()?,
        }
        Ok(())
    }
}

fn write_out(client: &mut Client, socket: &mut TcpStream) -> io::Result<()> {
    let count = client.output().len();
    socket.write_all(client.output())?;
    client.written(count);
    Ok(())
}

fn run(words: &[String]) -> Result<Option<u8>, Box<dyn Error>> {
    let (address, host, user, key, command) = match words {
        [_, address, host, user, key, command] => (address, host, user, key, command),
        _ => return Err("usage: run HOST:PORT HOST_KEY.pub USER KEY COMMAND".into()),
    };
    let host = keys::known_host_keys(&read(host)?, "")?;
    let (seed, _) = keys::private_key(&read(key)?)?;
    let mut client = Client::new(&ClientSettings::new(&host, Some(&seed)), &material()?, &random()?)?;
    let mut run = Run { user, command, status: None };
    let mut socket = TcpStream::connect(address)?;
    let (mut buffer, mut fresh) = ([0; 65536], material()?);
    write_out(&mut client, &mut socket)?;
    while !client.is_over() {
        let count = socket.read(&mut buffer)?;
        if count == 0 {
            return Err("the connection was lost".into());
        }
        let mut rest = buffer.get(..count).unwrap_or(&[]);
        while !rest.is_empty() && !client.is_over() {
            let used = client.take(rest)?;
            rest = rest.get(used..).unwrap_or(&[]);
            run.hear(&mut client)?;
            if client.feed(&fresh) {
                fresh = material()?;
            }
            while client.queued() > 0 {
                match client.work() {
                    Err(error) if error.is_later() => break,
                    Err(error) if !error.is_gone() => return Err(error.into()),
                    _ => {}
                }
            }
        }
        write_out(&mut client, &mut socket)?;
    }
    Ok(run.status)
}

fn main() {
    let words: Vec<String> = std::env::args().collect();
    match run(&words) {
        Ok(status) => std::process::exit(status.unwrap_or(255).into()),
        Err(error) => {
            eprintln!("run: {error}");
            std::process::exit(255);
        }
    }
}
