//! Hosts whose key is not known: whether they are trusted, and where that is noted.

use crate::log::say;
use crate::terminal;
use crate::words::HostCheck;
use divrelca_tokio::{decide, keys, Decide, Question};
use std::fs::File;
use std::io::{self, Read, Seek, SeekFrom, Write};
use std::os::unix::fs::OpenOptionsExt;
use std::path::Path;
use std::sync::Arc;

/// Decides on a host that is new by the words: its name in known_hosts, and the file where it is noted. A key that the text of known_hosts
/// revokes, of whichever host, is trusted by nobody.
pub fn trust(check: HostCheck, name: String, file: String, known: &[u8]) -> Decide {
    let revoked: Arc<[Vec<u8>]> = revoked_keys(known).into();
    decide(move |question| {
        let (name, file, revoked) = (name.clone(), file.clone(), revoked.clone());
        async move {
            let (algorithm, key) = match question {
                Question::HostKey { algorithm, key } => (algorithm, key),
                _ => return false,
            };
            let fingerprint = keys::fingerprint(&key);
            if revoked.contains(&key) {
                say(&format!("{name} shows the key {fingerprint}, which is revoked"));
                return false;
            }
            if check == HostCheck::Ask && !asked(&name, &algorithm, &fingerprint).await {
                return false;
            }
            match noted(&file, &format!("{name} {algorithm} {}\n", base64::encode(&key))) {
                Ok(()) => say(&format!("{name} is trusted from now on, by the key {fingerprint}: {file} has it")),
                Err(error) => say(&format!("{name} is trusted this once, by the key {fingerprint}: {file}: {error}")),
            }
            true
        }
    })
}

// The keys of all lines with the mark @revoked: the mark, hosts, the type, and the key.
fn revoked_keys(known: &[u8]) -> Vec<Vec<u8>> {
    let text = String::from_utf8_lossy(known);
    let of_line = |line: &str| {
        let mut words = line.split_whitespace();
        (words.next() == Some("@revoked")).then(|| words.nth(2).and_then(|it| base64::decode(it).ok())).flatten()
    };
    text.lines().filter_map(of_line).collect()
}

// What a person says at the terminal of the process; no where there is none.
async fn asked(name: &str, algorithm: &str, fingerprint: &str) -> bool {
    let mut prompt = format!("No key of {name} is known. It shows the key of {algorithm}\n{fingerprint}.\nIs it the right one (yes, no, or the fingerprint)? ");
    loop {
        match terminal::line(&prompt).await {
            Ok(line) if line == "yes" || line == fingerprint => return true,
            Ok(line) if line == "no" || line.is_empty() => return false,
            Ok(_) => prompt = "Please say yes, no, or the fingerprint: ".into(),
            Err(error) => {
                say(&format!("nobody can be asked whether {fingerprint} is the key of {name}: {error}"));
                return false;
            }
        }
    }
}

// Adds a line to a file, which is made for this user alone where it is not there, with its folder.
fn noted(file: &str, line: &str) -> io::Result<()> {
    if let Some(folder) = Path::new(file).parent().filter(|it| !it.as_os_str().is_empty() && !it.exists()) {
        std::fs::create_dir_all(folder)?;
    }
    let mut known = File::options().read(true).append(true).create(true).mode(0o600).open(file)?;
    let mut last = [b'\n'];
    if known.metadata()?.is_file() && known.metadata()?.len() > 0 {
        known.seek(SeekFrom::End(-1))?;
        known.read_exact(&mut last)?;
    }
    let gap = if last == [b'\n'] { "" } else { "\n" };
    known.write_all(format!("{gap}{line}").as_bytes())
}

#[cfg(test)]
mod tests {
    use super::*;

    #[test]
    fn keys_that_are_revoked() {
        let text = b"@revoked * ssh-rsa AAAB x\nbox ssh-rsa AAAC\n @revoked a,b ssh-ed25519 AAAD\n@revoked\n#@revoked * ssh-rsa AAAE\n@revoked * ssh-rsa !\n";
        assert_eq!(revoked_keys(text), [vec![0, 0, 1], vec![0, 0, 3]]);
    }
}
