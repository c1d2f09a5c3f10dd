//! The log, on standard error.

use std::io::Write;

/// Says a line. What a peer said is escaped there.
pub fn say(what: &str) {
    let plain: String = what.chars().map(|it| if it.is_control() { it.escape_default().to_string() } else { it.into() }).collect();
    // one write, so that lines stay whole; where nobody reads them any more the server goes on
    let _ = std::io::stderr().write_all(format!("dvsshd: {plain}\n").as_bytes());
}
