//! What was expected and what was seen.

use crate::run::Seen;

const SHOWN: usize = 160;

/// Bytes as they are shown in a message: on one line, and not too long.
pub fn shown(bytes: &[u8]) -> String {
    let front = &bytes[..bytes.len().min(SHOWN)];
    let text = format!("{:?}", String::from_utf8_lossy(front));
    if front.len() < bytes.len() {
        format!("{text}.. ({} bytes)", bytes.len())
    } else {
        text
    }
}

/// That two outputs are alike; else the first line where they are not.
pub fn same_bytes(expected: &[u8], seen: &[u8]) -> Result<(), String> {
    if expected == seen {
        return Ok(());
    }
    let mut theirs = expected.split_inclusive(|&byte| byte == b'\n');
    let mut mine = seen.split_inclusive(|&byte| byte == b'\n');
    let mut line = 1;
    loop {
        let (one, other) = (theirs.next(), mine.next());
        if one != other {
            let said = |line: Option<&[u8]>| line.map_or("nothing more".to_string(), shown);
            let (one, other) = (said(one), said(other));
            return Err(format!("line {line}: expected {one}, seen {other}"));
        }
        line += 1;
    }
}

/// That a program ended by itself, said this and nothing on standard error.
pub fn answered(expected: &[u8], seen: &Seen) -> Result<(), String> {
    seen.ended_well()?;
    same_bytes(expected, &seen.out)?;
    silent("standard error", &seen.err)
}

/// That nothing was written there.
pub fn silent(place: &str, written: &[u8]) -> Result<(), String> {
    if written.is_empty() {
        Ok(())
    } else {
        Err(format!(
            "expected nothing on {place}, seen {}",
            shown(written)
        ))
    }
}

/// The lines of a text, of which there must be so many, each closed.
pub fn exact_lines(count: usize, text: &[u8]) -> Result<Vec<String>, String> {
    let lossy = String::from_utf8_lossy(text);
    let lines: Vec<String> = lossy.lines().map(str::to_string).collect();
    if lines.len() == count && lossy.ends_with('\n') {
        Ok(lines)
    } else {
        Err(format!("expected {count} lines, seen {}", shown(text)))
    }
}

#[cfg(test)]
mod tests {
    use super::*;

    #[test]
    fn any_difference_is_told() {
        assert_eq!(same_bytes(b"a\nb\n", b"a\nb\n"), Ok(()));
        let lacking = same_bytes(b"a\nb\n", b"a\n").unwrap_err();
        assert_eq!(lacking, "line 2: expected \"b\\n\", seen nothing more");
        assert!(same_bytes(b"a\n", b"a").is_err());
        assert!(same_bytes(b"", b"\n").is_err());
        assert!(silent("standard error", b"\n").is_err());
    }

    #[test]
    fn lines_are_counted_and_closed() {
        assert!(exact_lines(2, b"a\nb\n").is_ok());
        assert!(exact_lines(2, b"a\nb").is_err());
        assert!(exact_lines(2, b"a\nb\nc\n").is_err());
        assert!(exact_lines(1, b"").is_err());
    }
}
