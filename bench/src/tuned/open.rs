//! Opening a table text, fast.

use crate::opened::{
    kept, listed, one_later, Head, Opened, FIRSTS_FROM, FRAMES, GRID_FROM, RULES_FROM,
};

/// The value of each lowercase hexadecimal digit, 255 for other characters.
static VALUES: [u8; 256] = values();

const fn values() -> [u8; 256] {
    let mut values = [255; 256];
    let mut value = 0;
    while value < 16 {
        values[b"0123456789abcdef"[value] as usize] = value as u8;
        value += 1;
    }
    values
}

/// Decodes the line at the front of the text: its number of bytes, none if it is no bytes.
fn take_line(text: &[u8], frames: &mut [u8]) -> Option<usize> {
    for ((n, pair), byte) in text.chunks(2).enumerate().zip(frames) {
        let high = VALUES[usize::from(pair[0])];
        let low = VALUES[usize::from(*pair.get(1).unwrap_or(&0))];
        if high | low > 15 || pair.len() < 2 {
            return (pair[0] == b'\n' && n > 0).then_some(n);
        }
        *byte = high << 4 | low;
    }
    None
}

/// The fields of a frame that are not yet read.
struct Fields<'frame> {
    bytes: &'frame [u8],
    at: usize,
}

impl<'frame> Fields<'frame> {
    #[inline(always)]
    fn below(&mut self, bound: usize) -> Result<usize, u8> {
        let Some(&number) = self.bytes.get(self.at) else {
            return Err(5);
        };
        self.at += 1;
        if usize::from(number) < bound {
            Ok(number.into())
        } else {
            Err(4)
        }
    }

    #[inline(always)]
    fn word(&mut self) -> Result<&'frame [u8], u8> {
        let length = self.below(33)?;
        let word = self.bytes.get(self.at..self.at + length).ok_or(5)?;
        self.at += length;
        Ok(word)
    }

    #[inline(always)]
    fn rule(&mut self, number: usize, states: usize, arity: usize) -> Result<u64, u8> {
        let word = self.word()?;
        let mut letters = word.len() as u64;
        let (mut first, mut later) = (0, 0);
        for child in 0..arity {
            let state = self.below(states)? as u64;
            if child == 0 {
                first = state
            } else {
                later = one_later(later, state)
            }
            let word = self.word()?;
            letters += word.len() as u64;
        }
        Ok(kept(letters, number, first, later, arity))
    }

    fn finish(&self) -> Result<(), u8> {
        if self.at < self.bytes.len() {
            Err(5)
        } else {
            Ok(())
        }
    }
}

struct Reading {
    frames: [u8; FRAMES],
    used: usize,
    /// The rules so far: each as it is listed, and what is kept for it.
    rules: [(u64, u64); 512],
    head: Head,
    least: usize,
    phase: u8,
}

impl Reading {
    #[inline(always)]
    fn take_frame(&mut self, end: usize) -> Result<(), u8> {
        let mut fields = Fields {
            bytes: &self.frames[..end],
            at: self.used + 1,
        };
        match (self.frames[self.used], self.phase) {
            (3, 1) => {
                let number = self.head.rules;
                let Some(slot) = self.rules.get_mut(number) else {
                    return Err(4);
                };
                let states = self.head.states;
                let state = fields.below(states)?;
                let symbol = fields.below(self.head.symbols)?;
                let key = state * 64 + symbol;
                if key < self.least {
                    return Err(3);
                }
                let arity = usize::from(self.frames[2 * symbol + 1]);
                let at = fields.at;
                *slot = (
                    listed(at, symbol, state),
                    fields.rule(number, states, arity)?,
                );
                fields.finish()?;
                self.least = key + 1;
                self.head.rules += 1;
            }
            (1, 0) => {
                if self.head.symbols == 64 {
                    return Err(4);
                }
                fields.below(5)?;
                fields.finish()?;
                self.head.symbols += 1;
            }
            (2, 0) if self.head.symbols > 0 => {
                let states = fields.below(65)?;
                if states == 0 {
                    return Err(4);
                }
                let before = fields.at;
                fields.word()?;
                let start = fields.below(states)?;
                let after = fields.at;
                fields.word()?;
                fields.finish()?;
                self.head = Head {
                    states,
                    start,
                    before,
                    after,
                    ..self.head
                };
                self.phase = 1;
            }
            (4, 1) => {
                fields.finish()?;
                self.phase = 2;
            }
            _ => return Err(3),
        }
        self.used = end;
        Ok(())
    }

    /// Writes the table that was read; what it has no use for is left as it was.
    fn hand_over(&self, into: &mut Opened) {
        let Opened { frames, numbers } = into;
        frames[..self.used].copy_from_slice(&self.frames[..self.used]);
        numbers[..FIRSTS_FROM].copy_from_slice(&self.head.numbers());
        numbers[GRID_FROM..GRID_FROM + 64 * self.head.states].fill(0);
        let mut states = 0;
        for (number, &(listed, kept)) in self.rules[..self.head.rules].iter().enumerate() {
            let key = (listed >> 17) as usize;
            while states <= key / 64 {
                numbers[FIRSTS_FROM + states] = number as u64;
                states += 1;
            }
            numbers[RULES_FROM + number] = listed;
            numbers[GRID_FROM + key] = kept;
        }
        numbers[FIRSTS_FROM + states..=FIRSTS_FROM + self.head.states].fill(self.head.rules as u64);
    }
}

/// Opens a text; where it is refused, with a number of no and a place, the table is as it was.
pub fn open(text: &[u8], into: &mut Opened) -> Result<(), (u8, usize)> {
    if text.is_empty() || text.len() > 32768 {
        return Err((1, 0));
    }
    let mut reading = Reading {
        frames: [0; FRAMES],
        used: 0,
        rules: [(0, 0); 512],
        head: Head::default(),
        least: 0,
        phase: 0,
    };
    let mut start = 0;
    while start < text.len() {
        let bytes =
            take_line(&text[start..], &mut reading.frames[reading.used..]).ok_or((2, start))?;
        reading
            .take_frame(reading.used + bytes)
            .map_err(|number| (number, start))?;
        start += 2 * bytes + 1;
    }
    if reading.phase != 2 {
        return Err((3, text.len()));
    }
    reading.hand_over(into);
    Ok(())
}
