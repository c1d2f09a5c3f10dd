//! A configuration file, as of OpenSSH's client: its options, `Host` and `Match` blocks, and files that it includes. What is not known there is
//! refused by name.

use crate::connect::{expand, home, my_name};
use crate::names::Read;
use crate::words::Words;
use divrelca_tokio::patterns;

// How deep files may include others, as with OpenSSH.
const DEEPEST: usize = 16;

/// Takes the options of a file that apply to the host, behind those that were given before.
pub fn read(words: &mut Words, path: &str) -> Read<()> {
    read_where(words, path, true, 0)
}

// The same of a file that is included so deep, at a place that applies or not.
fn read_where(words: &mut Words, path: &str, applies: bool, depth: usize) -> Read<()> {
    let text = std::fs::read_to_string(path).map_err(|error| format!("{path}: {error}"))?;
    let mut is_for_it = applies;
    for (number, line) in text.lines().enumerate() {
        let at = |error| format!("{path}, line {}: {error}", number + 1);
        let line = line.trim();
        if line.is_empty() || line.starts_with('#') {
            continue;
        }
        let (name, value) = line.split_at(line.find(['=', ' ', '\t']).unwrap_or(line.len()));
        let value = value.trim_start_matches([' ', '\t', '=']).trim();
        match name.to_ascii_lowercase().as_str() {
            "host" => is_for_it = applies && patterns::holds(value.split_whitespace(), |it| patterns::matches(it, &words.host)),
            "match" => is_for_it = matches(words, value).map_err(at)? && applies,
            "include" if depth == DEEPEST => return Err(at("files are included too deep".into())),
            "include" => {
                for file in value.split_whitespace().flat_map(files) {
                    read_where(words, &file, is_for_it, depth + 1)?;
                }
            }
            _ if is_for_it => words.read_option(line).map_err(at)?,
            _ => {}
        }
    }
    Ok(())
}

// Whether all criteria of a `Match` hold.
fn matches(words: &Words, text: &str) -> Read<bool> {
    let (mut rest, mut is_all) = (text.split_whitespace(), true);
    let user = || words.user.clone().map_or_else(|| my_name().map_err(|error| error.to_string()), Ok);
    while let Some(word) = rest.next() {
        let name = word.trim_start_matches('!').to_ascii_lowercase();
        if name == "all" {
            is_all &= !word.starts_with('!');
            continue;
        }
        let subject = match name.as_str() {
            "host" => words.host_name.clone().unwrap_or_else(|| words.host.clone()),
            "originalhost" => words.host.clone(),
            "user" => user()?,
            "localuser" => my_name().map_err(|error| error.to_string())?,
            _ => return Err(format!("Match {word} is not known")),
        };
        let list = rest.next().ok_or(format!("Match {word} has no value"))?;
        let holds = patterns::holds(list.trim_matches('"').split(','), |it| patterns::matches(it, &subject));
        is_all &= holds != word.starts_with('!');
    }
    if text.is_empty() {
        return Err("Match has no criteria".into());
    }
    Ok(is_all)
}

// The files of an `Include`: of a relative name below ~/.ssh, and where the last part is a pattern those that match it, in order. One that is
// not there is passed over.
fn files(name: &str) -> Vec<String> {
    let name = name.trim_matches('"');
    let path = if name.starts_with(['/', '~', '%']) { expand(name) } else { home(name) };
    let (folder, last) = path.rsplit_once('/').unwrap_or((".", &path));
    let mut found: Vec<String> = match std::fs::read_dir(folder) {
        Ok(entries) => entries.flatten().filter_map(|it| it.file_name().into_string().ok()).collect(),
        Err(_) => Vec::new(),
    };
    // (a name that begins with a dot is hidden from patterns)
    found.retain(|it| it == last || (patterns::matches(last, it) && (last.starts_with('.') || !it.starts_with('.'))));
    found.sort();
    found.into_iter().map(|it| format!("{folder}/{it}")).filter(|it| std::path::Path::new(it).is_file()).collect()
}

#[cfg(test)]
mod tests {
    use super::*;
    use std::ffi::OsString;
    use std::path::PathBuf;

    struct Folder(PathBuf);

    impl Folder {
        fn new(name: &str) -> Self {
            let path = std::env::temp_dir().join(format!("dvssh.{name}.{}", std::process::id()));
            std::fs::create_dir_all(&path).unwrap();
            Folder(path)
        }

        fn write(&self, file: &str, text: &str) -> String {
            let path = self.0.join(file);
            std::fs::write(&path, text).unwrap();
            path.display().to_string()
        }
    }

    impl Drop for Folder {
        fn drop(&mut self) {
            let _ = std::fs::remove_dir_all(&self.0);
        }
    }

    fn words(line: String) -> Read<Words> {
        Words::read(line.split(' ').map(OsString::from))
    }

    #[test]
    fn a_file_comes_behind_the_words() {
        let folder = Folder::new("behind");
        let text =
            "# x\nHost other\n Port 1\nHost box\n HostName box.example.org\n\tPort = 2222\n User me\nHost *\n User you\n IdentityFile k\n";
        let path = folder.write("config", text);
        let read = words(format!("-p 7 -F {path} box")).unwrap();
        assert_eq!((read.port(), read.user.as_deref(), read.host_name.as_deref()), (7, Some("me"), Some("box.example.org")));
        assert_eq!(read.keys, ["k"]);
        folder.write("config", "Tunnel yes\n");
        assert!(words(format!("-F {path} box")).unwrap_err().contains("line 1: the option Tunnel"));
    }

    #[test]
    fn blocks_that_match() {
        let folder = Folder::new("match");
        let port = |criteria: &str, more: &str| {
            let path = folder.write("config", &format!("HostName box.example.org\nMatch {criteria}\n Port 2222\nMatch all\n User last\n"));
            words(format!("{more}-F {path} box")).map(|it| it.port() == 2222)
        };
        for yes in ["all", "host box.example.org", "host *.org,!a.org", "originalhost box", "!host other", "user me", "ALL", "host *.org user me,you"] {
            assert_eq!(port(yes, "-l me "), Ok(true), "{yes}");
        }
        for no in ["host box", "originalhost *.org", "user you", "!all", "host *.org user you", "host !box.example.org", "host *.org,!box.*", "!user me"] {
            assert_eq!(port(no, "-l me "), Ok(false), "{no}");
        }
        let me = my_name().unwrap();
        assert_eq!((port(&format!("localuser {me}"), ""), port(&format!("user {me}"), "")), (Ok(true), Ok(true)));
        for bad in ["", "exec true", "final", "host", "user me host"] {
            assert!(port(bad, "").unwrap_err().contains("line 2: Match "), "{bad}");
        }
    }

    #[test]
    fn files_that_are_included() {
        let folder = Folder::new("include");
        let at = folder.0.display().to_string();
        std::fs::create_dir(folder.0.join("c.conf")).unwrap();
        folder.write("b.conf", "Port 2\nUser b\n");
        folder.write("a.conf", "Host other\n Port 9\nHost box\n HostName a.example.org\n");
        folder.write(".hidden.conf", "Port 8\n");
        let path = folder.write("config", &format!("Include {at}/nowhere {at}/*.conf\nIdentityFile k\nHost other\n Include {at}/d\n"));
        folder.write("d", "Port 7\nHost box\n User d\n");
        let read = words(format!("-F {path} box")).unwrap();
        assert_eq!((read.port(), read.user.as_deref(), read.host_name.as_deref()), (2, Some("b"), Some("a.example.org")));
        assert_eq!(read.keys, ["k"]); // the blocks of a file that is included end with it
        folder.write("b.conf", "Port x\n");
        assert!(words(format!("-F {path} box")).unwrap_err().contains("b.conf, line 1: "));
        let path = folder.write("self", &format!("Include {at}/self\n"));
        assert!(words(format!("-F {path} box")).unwrap_err().contains("self, line 1: files are included too deep"));
    }
}
