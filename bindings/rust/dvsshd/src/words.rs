//! The words of the command line.

use crate::Failure;
use lexopt::prelude::*;
use std::ffi::OsString;

pub const USAGE: &str = "usage: dvsshd -h HOST_KEY [-a AUTHORIZED_KEYS] [-P PASSWORD_FILE] [-u USER] [-l ADDRESS] [-p PORT] [-g GRACE] \
     [-k KEEPALIVE] [-s SFTP_SERVER] [-m BEGIN:RATE:FULL] [-n OF_ADDRESS] [-i] [-v]";

const HELP: &str = include_str!("help.txt");

// Says what was asked for, and that is all.
fn says(text: &str) -> ! {
    print!("{text}");
    std::process::exit(0);
}

pub struct Words {
    pub address: String,
    pub port: u16,
    pub is_inetd: bool,
    pub is_verbose: bool,
    pub user: Option<String>,
    pub sftp_server: OsString,
    pub host_key: OsString,
    pub authorized_keys: Option<OsString>,
    pub password_file: Option<OsString>,
    pub grace: u64,
    pub keepalive: u64,
    /// As MaxStartups of OpenSSH.
    pub startups: Option<[usize; 3]>,
    pub of_address: Option<usize>,
}

impl Words {
    pub fn read(mut all: lexopt::Parser) -> Result<Self, Failure> {
        let mut words = Words {
            address: "127.0.0.1".into(),
            port: 22,
            is_inetd: false,
            is_verbose: false,
            user: None,
            sftp_server: "/usr/lib/openssh/sftp-server".into(),
            host_key: OsString::new(),
            authorized_keys: None,
            password_file: None,
            grace: 120,
            keepalive: 60,
            startups: None,
            of_address: None,
        };
        while let Some(word) = all.next()? {
            match word {
                Short('h') => words.host_key = all.value()?,
                Short('a') => words.authorized_keys = Some(all.value()?),
                Short('P') => words.password_file = Some(all.value()?),
                Short('u') => words.user = Some(all.value()?.parse()?),
                Short('l') => words.address = all.value()?.parse()?,
                Short('p') => words.port = all.value()?.parse()?,
                Short('g') => words.grace = all.value()?.parse()?,
                Short('k') => words.keepalive = all.value()?.parse()?,
                Short('s') => words.sftp_server = all.value()?,
                Short('m') => words.startups = Some(startups(&all.value()?.parse::<String>()?)?),
                Short('n') => words.of_address = Some(all.value()?.parse()?),
                Short('i') => words.is_inetd = true,
                Short('v') => words.is_verbose = true,
                Long("help") => says(HELP),
                Long("version") => says(concat!("dvsshd ", env!("CARGO_PKG_VERSION"), "\n")),
                other => return Err(format!("{}; {USAGE}", other.unexpected()).into()),
            }
        }
        if words.host_key.is_empty() || (words.authorized_keys.is_none() && words.password_file.is_none()) {
            return Err(format!("-h HOST_KEY is wanted, and -a AUTHORIZED_KEYS or -P PASSWORD_FILE; {USAGE}").into());
        }
        Ok(words)
    }
}

fn startups(text: &str) -> Result<[usize; 3], Failure> {
    let numbers = text.split(':').map(str::parse).collect::<Result<Vec<usize>, _>>()?;
    match numbers[..] {
        [begin, rate, full] if begin < full && rate <= 100 => Ok([begin, rate, full]),
        _ => Err(format!("{text:?} is not BEGIN:RATE:FULL").into()),
    }
}

#[cfg(test)]
mod tests {
    use super::*;

    #[test]
    fn words() {
        let read = |line: &str| Words::read(lexopt::Parser::from_args(line.split(' ').map(String::from).collect::<Vec<_>>()));
        let words = read("-h key -a keys -p 2222 -m 5:50:20 -iv").map_err(|it| it.to_string()).ok().unwrap();
        assert_eq!((words.port, words.startups, words.is_inetd, words.is_verbose), (2222, Some([5, 50, 20]), true, true));
        for bad in ["-h key", "-a keys", "-h key -a keys -m 5:50", "-h key -a keys -x", "-h key -a keys x", "-h key -a keys -p x"] {
            assert!(read(bad).is_err(), "{bad}");
        }
    }
}
