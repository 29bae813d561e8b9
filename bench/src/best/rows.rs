//! A table text read in one pass: the decoded frames, and of each rule where its words stand and
//! its children.

/// A number of no and its place.
pub type No = (u8, usize);

/// One rule. `word` has the place of the length byte of each of its words.
#[derive(Clone, Copy, Default)]
pub struct Row {
    pub word: [u16; 5],
    pub kid: [u8; 4],
    pub kids: u8,
    pub state: u8,
    pub symbol: u8,
}

/// An opened table. Symbols stand first in the frames, two bytes each.
pub struct Rows {
    pub frames: Vec<u8>,
    pub symbols: usize,
    pub states: usize,
    pub start: usize,
    pub before: usize,
    pub after: usize,
    pub first: usize,
    pub list: Vec<Row>,
}

impl Row {
    pub fn words(&self) -> &[u16] {
        &self.word[..=usize::from(self.kids)]
    }

    pub fn children(&self) -> &[u8] {
        &self.kid[..usize::from(self.kids)]
    }

    /// Where the row's frame begins.
    pub fn at(&self) -> usize {
        usize::from(self.word[0]) - 3
    }
}

impl Rows {
    /// The word whose length byte stands at `at`.
    pub fn word(&self, at: usize) -> &[u8] {
        let length = usize::from(self.frames[at]);
        &self.frames[at + 1..at + 1 + length]
    }

    pub fn arity(&self, symbol: usize) -> u8 {
        self.frames[2 * symbol + 1]
    }
}

/// For each state where its rows begin, and the end behind the last.
pub fn starts_of(rows: &[Row]) -> [u16; 65] {
    let mut starts = [0; 65];
    for row in rows {
        starts[usize::from(row.state & 63) + 1] += 1;
    }
    for state in 0..64 {
        starts[state + 1] += starts[state];
    }
    starts
}

const fn values() -> [u8; 256] {
    let mut values = [255; 256];
    let mut digit = 0;
    while digit < 16 {
        values[b"0123456789abcdef"[digit] as usize] = digit as u8;
        digit += 1;
    }
    values
}

static VALUES: [u8; 256] = values();

/// Decodes the line at the front of `text` to `frames`: how many bytes, none for a bad line.
fn decode(text: &[u8], frames: &mut [u8]) -> Option<usize> {
    for (i, (pair, byte)) in text.chunks_exact(2).zip(frames).enumerate() {
        let (high, low) = (VALUES[usize::from(pair[0])], VALUES[usize::from(pair[1])]);
        if high | low > 15 {
            return (pair[0] == b'\n').then_some(i);
        }
        *byte = high << 4 | low;
    }
    (text.len() % 2 == 1 && text[text.len() - 1] == b'\n').then_some(text.len() / 2)
}

/// Reads a table text, or gives the first refusal of 1 to 5.
pub fn read(text: &[u8]) -> Result<Rows, No> {
    if text.is_empty() || text.len() > 32768 {
        return Err((1, 0));
    }
    let list = Vec::with_capacity(512.min(text.len() / 9));
    let mut rows = Rows {
        frames: vec![0; text.len() / 2 + 1],
        symbols: 0,
        states: 0,
        start: 0,
        before: 0,
        after: 0,
        first: 0,
        list,
    };
    let (mut at, mut used, mut ended, mut due) = (0, 0, false, 0);
    while at < text.len() {
        let count = decode(&text[at..], &mut rows.frames[used..])
            .filter(|&count| count > 0)
            .ok_or((2, at))?;
        let end = used + count;
        match rows.frames[used] {
            1 if rows.states == 0 => symbol_frame(&mut rows, used + 1, end),
            2 if rows.states == 0 && rows.symbols > 0 => start_frame(&mut rows, used + 1, end),
            3 if rows.states > 0 && !ended => rule_frame(&mut rows, used + 1, end, &mut due),
            4 if rows.states > 0 && !ended => {
                ended = true;
                finish(used + 1, end)
            }
            _ => Err(3),
        }
        .map_err(|number| (number, at))?;
        used = end;
        at += 2 * count + 1;
    }
    if !ended {
        return Err((3, text.len()));
    }
    Ok(rows)
}

fn finish(at: usize, end: usize) -> Result<(), u8> {
    if at < end {
        Err(5)
    } else {
        Ok(())
    }
}

/// The byte at `at`, which is at most `most`.
fn within(frames: &[u8], at: usize, most: usize) -> Result<u8, u8> {
    match frames.get(at) {
        None => Err(5),
        Some(&byte) if usize::from(byte) > most => Err(4),
        Some(&byte) => Ok(byte),
    }
}

/// Where what follows the word at `at` stands.
fn behind(frames: &[u8], at: usize) -> Result<usize, u8> {
    let next = at + 1 + usize::from(within(frames, at, 32)?);
    if next <= frames.len() {
        Ok(next)
    } else {
        Err(5)
    }
}

fn symbol_frame(rows: &mut Rows, at: usize, end: usize) -> Result<(), u8> {
    if rows.symbols == 64 {
        return Err(4);
    }
    within(&rows.frames[..end], at, 4)?;
    rows.symbols += 1;
    finish(at + 1, end)
}

fn start_frame(rows: &mut Rows, at: usize, end: usize) -> Result<(), u8> {
    let frames = &rows.frames[..end];
    let states = usize::from(within(frames, at, 64)?);
    if states == 0 {
        return Err(4);
    }
    let state = behind(frames, at + 1)?;
    let start = usize::from(within(frames, state, states - 1)?);
    finish(behind(frames, state + 1)?, end)?;
    (rows.states, rows.start, rows.before, rows.after, rows.first) =
        (states, start, at + 1, state + 1, end);
    Ok(())
}

fn rule_frame(rows: &mut Rows, at: usize, end: usize, due: &mut usize) -> Result<(), u8> {
    if rows.list.len() == 512 {
        return Err(4);
    }
    let frames = &rows.frames[..end];
    let state = within(frames, at, rows.states - 1)?;
    let symbol = within(frames, at + 1, rows.symbols - 1)?;
    let key = usize::from(state) * 64 + usize::from(symbol);
    if key < *due {
        return Err(3);
    }
    *due = key + 1;
    let (row, next) = rule_fields(frames, at + 2, state, symbol, rows.states)?;
    finish(next, end)?;
    rows.list.push(row);
    Ok(())
}

/// The row whose first word stands at `at`, and where what follows it stands.
fn rule_fields(
    frames: &[u8],
    at: usize,
    state: u8,
    symbol: u8,
    states: usize,
) -> Result<(Row, usize), u8> {
    let kids = frames[2 * usize::from(symbol) + 1];
    let mut row = Row {
        kids,
        state,
        symbol,
        ..Row::default()
    };
    row.word[0] = at as u16;
    let mut next = behind(frames, at)?;
    for (kid, word) in row
        .kid
        .iter_mut()
        .zip(&mut row.word[1..])
        .take(usize::from(kids))
    {
        *kid = within(frames, next, states - 1)?;
        *word = (next + 1) as u16;
        next = behind(frames, next + 1)?;
    }
    Ok((row, next))
}
