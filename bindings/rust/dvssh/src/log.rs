//! Messages for people, to standard error or to the file of -E.

use std::fs::File;
use std::io::{self, Write};
use std::sync::{Mutex, PoisonError};

static LOG: Mutex<Option<File>> = Mutex::new(None);

/// Messages go to the end of this file from now on.
pub fn open(path: &str) -> io::Result<()> {
    let file = File::options().append(true).create(true).open(path)?;
    *LOG.lock().unwrap_or_else(PoisonError::into_inner) = Some(file);
    Ok(())
}

/// Text without what could steer a terminal.
pub fn plain(text: &str) -> String {
    text.chars().map(|it| if it.is_control() { '\u{fffd}' } else { it }).collect()
}

fn write(text: &str) {
    // where nobody reads it the program goes on
    let _ = match &mut *LOG.lock().unwrap_or_else(PoisonError::into_inner) {
        Some(file) => file.write_all(text.as_bytes()),
        None => io::stderr().write_all(text.as_bytes()),
    };
}

/// Says a line. A terminal may be in raw mode.
pub fn say(what: &str) {
    let end = if crate::terminal::is_terminal(2) { "\r\n" } else { "\n" };
    write(&format!("dvssh: {}{end}", plain(what)));
}

/// Shows the server's banner, of which lines and tabs stay.
pub fn show_banner(banner: &str) {
    let text: String = banner.chars().filter(|it| !it.is_control() || matches!(it, '\n' | '\t')).collect();
    if !text.is_empty() {
        write(&text);
    }
}
