//! Lowercase hexadecimal, the only spelling the documents allow.

/// The bytes that the digits spell; none for an odd number of digits or any
/// other character. No digits spell no bytes.
pub fn decode(digits: &[u8]) -> Option<Vec<u8>> {
    let mut bytes = Vec::new();
    decode_onto(digits, &mut bytes).then_some(bytes)
}

/// Like `decode`, into bytes that are lent (their old content is dropped), so
/// that a program that reads many lines asks for memory once.
pub fn decode_onto(digits: &[u8], bytes: &mut Vec<u8>) -> bool {
    bytes.clear();
    if digits.len() % 2 == 1 {
        return false;
    }
    bytes.reserve(digits.len() / 2);
    for pair in digits.chunks_exact(2) {
        match (digit_value(pair[0]), digit_value(pair[1])) {
            (Some(high), Some(low)) => bytes.push(high * 16 + low),
            _ => return false,
        }
    }
    true
}

/// What each line of a text spells. The last line need not be closed.
pub fn decode_lines(text: &[u8]) -> impl Iterator<Item = Option<Vec<u8>>> + '_ {
    let closed = text.strip_suffix(b"\n").unwrap_or(text);
    closed.split(|&byte| byte == b'\n').map(decode)
}

fn digit_value(digit: u8) -> Option<u8> {
    match digit {
        b'0'..=b'9' => Some(digit - b'0'),
        b'a'..=b'f' => Some(digit - b'a' + 10),
        _ => None,
    }
}

pub fn encode(bytes: &[u8]) -> Vec<u8> {
    let mut digits = Vec::new();
    encode_onto(bytes, &mut digits);
    digits
}

pub fn encode_onto(bytes: &[u8], digits: &mut Vec<u8>) {
    const DIGITS: &[u8; 16] = b"0123456789abcdef";
    digits.reserve(bytes.len() * 2);
    for byte in bytes {
        digits.push(DIGITS[usize::from(byte / 16)]);
        digits.push(DIGITS[usize::from(byte % 16)]);
    }
}
