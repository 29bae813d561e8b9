//! A terminal, by `script` of util-linux: a shell line is run at it, and what is written to it is
//! seen on the call's standard output. A line feed comes from a terminal as a carriage return and a
//! line feed.

use std::path::Path;

use crate::run::Call;

pub fn is_there() -> bool {
    let call = Call::new("script").arg("--version").at_once();
    let seen = call.run_in_any_case();
    seen.ended_well().is_ok() && !seen.out.is_empty()
}

/// A shell line at a terminal at which nobody types.
pub fn call(line: &str) -> Call {
    Call::new("script")
        .args(&["-qec", line, "/dev/null"])
        .env("SHELL", "/bin/sh")
}

/// A path as one word of a shell line.
pub fn quoted(path: &Path) -> String {
    format!("'{}'", path.display().to_string().replace('\'', r"'\''"))
}
