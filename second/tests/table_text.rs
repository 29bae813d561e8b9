//! The order of refusals 1 to 5, line by line.

use fadurinko_second::refusal::Refusal;
use fadurinko_second::table::{read, write};

fn answer(text: &str) -> Result<(), (u8, usize)> {
    answer_bytes(text.as_bytes())
}

fn answer_bytes(text: &[u8]) -> Result<(), (u8, usize)> {
    match read(text) {
        Ok(table) => {
            assert_eq!(write(&table), text, "writing undoes reading");
            Ok(())
        }
        Err(Refusal { number, place }) => Err((number, place)),
    }
}

const GOOD: &str = "0100\n0101\n0202000000\n03000000\n030001000100\n03010000\n04\n";

#[test]
fn a_good_text() {
    assert_eq!(answer(GOOD), Ok(()));
}

#[test]
fn sizes() {
    assert_eq!(answer(""), Err((1, 0)));
    assert_eq!(answer(&"0\n".repeat(16_385)), Err((1, 0)));
    assert_eq!(answer(&"0".repeat(32_769)), Err((1, 0)));
    assert_eq!(answer(&"0".repeat(32_768)), Err((2, 0)));
}

#[test]
fn lines() {
    assert_eq!(answer("\n"), Err((2, 0)));
    assert_eq!(answer("010\n"), Err((2, 0)));
    assert_eq!(answer("0100"), Err((2, 0)));
    assert_eq!(answer("0100\r\n"), Err((2, 0)));
    assert_eq!(answer("0100\n0A00\n"), Err((2, 5)));
    assert_eq!(answer("0100\n01 0\n"), Err((2, 5)));
    assert_eq!(answer("0100\n\n"), Err((2, 5)));
    assert_eq!(answer("ff0\n"), Err((2, 0)));
    assert_eq!(answer("ffgg\n"), Err((2, 0)));
}

#[test]
fn kinds() {
    assert_eq!(answer("00\n"), Err((3, 0)));
    assert_eq!(answer("05\n"), Err((3, 0)));
    assert_eq!(answer("0201000000\n"), Err((3, 0)));
    assert_eq!(answer("04\n"), Err((3, 0)));
    assert_eq!(answer("0100\n04\n"), Err((3, 5)));
    assert_eq!(answer("0100\n03000000\n"), Err((3, 5)));
    assert_eq!(answer("0100\n0201000000\n0100\n"), Err((3, 16)));
    assert_eq!(answer("0100\n0201000000\n0201000000\n"), Err((3, 16)));
    assert_eq!(answer("0100\n0201000000\n"), Err((3, 16)));
    assert_eq!(answer("0100\n"), Err((3, 5)));
}

#[test]
fn after_the_end() {
    let end = GOOD.len();
    for line in ["04\n", "0100\n", "03010100\n", "ff\n", "0202000000\n"] {
        assert_eq!(answer(&format!("{GOOD}{line}")), Err((3, end)));
    }
    for line in ["\n", "04", "0", "0G\n", "\r\n"] {
        assert_eq!(answer(&format!("{GOOD}{line}")), Err((2, end)));
    }
}

#[test]
fn ranges() {
    assert_eq!(answer("0105\n"), Err((4, 0)));
    assert_eq!(answer("0100\n0200\n"), Err((4, 5)));
    assert_eq!(answer("0100\n0241\n"), Err((4, 5)));
    assert_eq!(answer("0100\n0240\n"), Err((5, 5)));
    assert_eq!(answer("0100\n020121\n"), Err((4, 5)));
    assert_eq!(answer("0100\n0201000100\n"), Err((4, 5)));
    assert_eq!(answer("0100\n0201000000\n0301\n"), Err((4, 16)));
    assert_eq!(answer("0100\n0201000000\n030001\n"), Err((4, 16)));
    assert_eq!(answer("0101\n0201000000\n0300000001\n"), Err((4, 16)));
    assert_eq!(answer("0101\n0201000000\n03000000\n"), Err((5, 16)));
}

#[test]
fn rules_rise() {
    let start = "0100\n0100\n0202000000\n03000100\n";
    let place = start.len();
    for rule in ["030001", "030000", "03000121", "0300010000", "03000000"] {
        let text = format!("{start}{rule}\n04\n");
        assert_eq!(answer(&text), Err((3, place)), "{rule}");
    }
    assert_eq!(answer(&format!("{start}030002\n")), Err((4, place)));
    assert_eq!(answer(&format!("{start}0300\n")), Err((5, place)));
    assert_eq!(answer(&format!("{start}03010000\n04\n")), Ok(()));
    let falling = "0100\n0100\n0202000000\n03010000\n03000100\n04\n";
    assert_eq!(answer(falling), Err((3, place)));
}

#[test]
fn frame_lengths() {
    assert_eq!(answer("01\n"), Err((5, 0)));
    assert_eq!(answer("010000\n"), Err((5, 0)));
    assert_eq!(answer("0100\n02\n"), Err((5, 5)));
    assert_eq!(answer("0100\n02010261\n"), Err((5, 5)));
    assert_eq!(answer("0100\n020100000000\n"), Err((5, 5)));
    assert_eq!(answer("0100\n0201000000\n0400\n"), Err((5, 16)));
    assert_eq!(answer("0100\n0201000000\n0300000000\n"), Err((5, 16)));
    assert_eq!(answer("0100\n0201000000\n03000020\n"), Err((5, 16)));
}

#[test]
fn sixty_four_symbols_and_one_more() {
    let symbols = "0100\n".repeat(64);
    let rest = "0201000000\n04\n";
    assert_eq!(answer(&format!("{symbols}{rest}")), Ok(()));
    for symbol in ["0100", "01", "0105", "010000"] {
        let text = format!("{symbols}{symbol}\n{rest}");
        assert_eq!(answer(&text), Err((4, 320)), "{symbol}");
    }
    assert_eq!(answer(&format!("{symbols}05\n")), Err((3, 320)));
}

#[test]
fn five_hundred_and_twelve_rules_and_one_more() {
    let mut text = "0100\n".repeat(64) + "0209000000\n";
    for state in 0..8 {
        for symbol in 0..64 {
            text += &format!("03{state:02x}{symbol:02x}00\n");
        }
    }
    assert_eq!(answer(&format!("{text}04\n")), Ok(()));
    for rule in ["03080000", "03", "03ff", "03000000", "0308000000"] {
        let expected = Err((4, text.len()));
        assert_eq!(answer(&format!("{text}{rule}\n04\n")), expected, "{rule}");
    }
}

#[test]
fn every_cut_of_a_good_text() {
    for length in 1..GOOD.len() {
        let cut = &GOOD[..length];
        let start = cut.rfind('\n').map_or(0, |line_feed| line_feed + 1);
        let number = if start == length { 3 } else { 2 };
        assert_eq!(answer(cut), Err((number, start)));
    }
}

#[test]
fn bytes_that_are_no_digits() {
    for byte in 0..=255u8 {
        let is_digit = byte.is_ascii_digit() || (b'a'..=b'f').contains(&byte);
        let text = [b"01".as_slice(), &[b'0', byte], b"\n"].concat();
        match answer_bytes(&text) {
            Err((number, _)) if is_digit => assert_ne!(number, 2),
            other if byte != b'\n' => assert_eq!(other, Err((2, 0))),
            other => assert_eq!(other, Err((2, 0)), "a line of three digits"),
        }
    }
}
