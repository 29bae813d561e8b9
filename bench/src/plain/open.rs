//! Opening a table text, straightforwardly: the lines in turn into bytes and numbers of its own, which
//! are handed over in the end.

use crate::opened::{
    kept, listed, one_later, Head, Opened, FIRSTS_FROM, FRAMES, GRID_FROM, NUMBERS, RULES_FROM,
};
use fadurinko_second::limits::{MAX_ARITY, MAX_RULES, MAX_STATES, MAX_SYMBOLS, MAX_TEXT, MAX_WORD};

#[derive(Clone, Copy, PartialEq)]
enum Phase {
    Symbols,
    Rules,
    Ended,
}

/// What the lines so far have given.
struct Reading {
    frames: [u8; FRAMES],
    used: usize,
    numbers: [u64; NUMBERS],
    head: Head,
    last: Option<usize>,
    phase: Phase,
}

fn digit_value(digit: u8) -> Option<u8> {
    match digit {
        b'0'..=b'9' => Some(digit - b'0'),
        b'a'..=b'f' => Some(digit - b'a' + 10),
        _ => None,
    }
}

impl Reading {
    fn new() -> Reading {
        Reading {
            frames: [0; FRAMES],
            used: 0,
            numbers: [0; NUMBERS],
            head: Head::default(),
            last: None,
            phase: Phase::Symbols,
        }
    }

    /// The bytes of a line behind those that are used; none if it is no bytes.
    fn decode(&mut self, digits: &[u8]) -> Option<usize> {
        if digits.is_empty() || digits.len() % 2 == 1 {
            return None;
        }
        let mut end = self.used;
        for pair in digits.chunks_exact(2) {
            self.frames[end] = digit_value(pair[0])? * 16 + digit_value(pair[1])?;
            end += 1;
        }
        Some(end)
    }

    /// Takes the frame from the used bytes to `end`, or says the number of its first fault.
    fn take_frame(&mut self, end: usize) -> Result<(), u8> {
        let at = self.used + 1;
        match (self.frames[self.used], self.phase) {
            (1, Phase::Symbols) => self.take_symbol(at, end)?,
            (2, Phase::Symbols) if self.head.symbols > 0 => self.take_start(at, end)?,
            (3, Phase::Rules) => self.take_rule(at, end)?,
            (4, Phase::Rules) => self.take_end(at, end)?,
            _ => return Err(3),
        }
        self.used = end;
        Ok(())
    }

    fn take_symbol(&mut self, at: usize, end: usize) -> Result<(), u8> {
        if self.head.symbols == MAX_SYMBOLS {
            return Err(4);
        }
        let mut fields = Fields {
            bytes: &self.frames[..end],
            at,
        };
        fields.number(0, usize::from(MAX_ARITY))?;
        fields.finish()?;
        self.head.symbols += 1;
        Ok(())
    }

    fn take_start(&mut self, at: usize, end: usize) -> Result<(), u8> {
        let mut fields = Fields {
            bytes: &self.frames[..end],
            at,
        };
        let states = fields.number(1, usize::from(MAX_STATES))?;
        let before = fields.at;
        fields.word()?;
        let start = fields.number(0, states - 1)?;
        let after = fields.at;
        fields.word()?;
        fields.finish()?;
        self.head = Head {
            states,
            start,
            before,
            after,
            ..self.head
        };
        self.phase = Phase::Rules;
        Ok(())
    }

    fn take_rule(&mut self, at: usize, end: usize) -> Result<(), u8> {
        let Head {
            symbols,
            states,
            rules,
            ..
        } = self.head;
        if rules == MAX_RULES {
            return Err(4);
        }
        let mut fields = Fields {
            bytes: &self.frames[..end],
            at,
        };
        let state = fields.number(0, states - 1)?;
        let symbol = fields.number(0, symbols - 1)?;
        let key = state * 64 + symbol;
        if self.last.is_some_and(|last| key <= last) {
            return Err(3);
        }
        let arity = usize::from(self.frames[2 * symbol + 1]);
        self.numbers[RULES_FROM + rules] = listed(fields.at, symbol, state);
        self.numbers[GRID_FROM + key] = fields.rule(rules, states, arity)?;
        fields.finish()?;
        self.numbers[FIRSTS_FROM + state + 1] += 1;
        self.last = Some(key);
        self.head.rules += 1;
        Ok(())
    }

    fn take_end(&mut self, at: usize, end: usize) -> Result<(), u8> {
        self.phase = Phase::Ended;
        Fields {
            bytes: &self.frames[..end],
            at,
        }
        .finish()
    }

    /// Writes the table that was read; what it has no use for is left as it was.
    fn hand_over(&mut self, into: &mut Opened) {
        let Head { states, rules, .. } = self.head;
        self.numbers[..FIRSTS_FROM].copy_from_slice(&self.head.numbers());
        for state in 0..states {
            self.numbers[FIRSTS_FROM + state + 1] += self.numbers[FIRSTS_FROM + state];
        }
        into.frames[..self.used].copy_from_slice(&self.frames[..self.used]);
        let head_and_firsts = 0..FIRSTS_FROM + states + 1;
        let grid = GRID_FROM..GRID_FROM + 64 * states;
        for part in [head_and_firsts, RULES_FROM..RULES_FROM + rules, grid] {
            into.numbers[part.clone()].copy_from_slice(&self.numbers[part]);
        }
    }
}

/// The fields of a frame that are not yet read, taken from left to right.
struct Fields<'frame> {
    bytes: &'frame [u8],
    at: usize,
}

impl<'frame> Fields<'frame> {
    fn number(&mut self, least: usize, most: usize) -> Result<usize, u8> {
        let number = usize::from(*self.bytes.get(self.at).ok_or(5)?);
        self.at += 1;
        if number < least || most < number {
            Err(4)
        } else {
            Ok(number)
        }
    }

    fn word(&mut self) -> Result<&'frame [u8], u8> {
        let length = self.number(0, usize::from(MAX_WORD))?;
        let word = self.bytes.get(self.at..self.at + length).ok_or(5)?;
        self.at += length;
        Ok(word)
    }

    /// What is kept for a rule whose fields stand here.
    fn rule(&mut self, number: usize, states: usize, arity: usize) -> Result<u64, u8> {
        let mut letters = self.word()?.len() as u64;
        let (mut first, mut later) = (0, 0);
        for child in 0..arity {
            let state = self.number(0, states - 1)? as u64;
            if child == 0 {
                first = state
            } else {
                later = one_later(later, state)
            }
            letters += self.word()?.len() as u64;
        }
        Ok(kept(letters, number, first, later, arity))
    }

    fn finish(&self) -> Result<(), u8> {
        if self.at < self.bytes.len() {
            Err(5)
        } else {
            Ok(())
        }
    }
}

/// Opens a text; where it is refused, with a number of no and a place, the table is as it was.
pub fn open(text: &[u8], into: &mut Opened) -> Result<(), (u8, usize)> {
    if text.is_empty() || text.len() > MAX_TEXT {
        return Err((1, 0));
    }
    let mut reading = Reading::new();
    let mut start = 0;
    while start < text.len() {
        let length = text[start..]
            .iter()
            .position(|&byte| byte == b'\n')
            .ok_or((2, start))?;
        let end = reading
            .decode(&text[start..start + length])
            .ok_or((2, start))?;
        reading.take_frame(end).map_err(|number| (number, start))?;
        start += length + 1;
    }
    if reading.phase != Phase::Ended {
        return Err((3, text.len()));
    }
    reading.hand_over(into);
    Ok(())
}
