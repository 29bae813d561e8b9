//! The table and its text: reading with refusals 1 to 5, and writing.

use crate::hex;
use crate::limits::{MAX_ARITY, MAX_RULES, MAX_STATES, MAX_SYMBOLS, MAX_TEXT, MAX_WORD};
use crate::refusal::{Refusal, FRAME_LENGTH, KIND, LINE, RANGE, TEXT_SIZE};

pub const SYMBOL_FRAME: u8 = 1;
pub const HEAD_FRAME: u8 = 2;
pub const RULE_FRAME: u8 = 3;
pub const END_FRAME: u8 = 4;

pub type Word = Vec<u8>;

/// The initial rule u0 q u1.
#[derive(Clone, Debug, PartialEq, Eq, Hash)]
pub struct Initial {
    pub before: Word,
    pub state: u8,
    pub after: Word,
}

/// One child of a rule: the state that it is given and the word behind it.
#[derive(Clone, Debug, PartialEq, Eq, Hash)]
pub struct Child {
    pub state: u8,
    pub after: Word,
}

/// A rule u0 q1 u1 .. qk uk for a state and a symbol.
#[derive(Clone, Debug, PartialEq, Eq, Hash)]
pub struct Rule {
    pub state: u8,
    pub symbol: u8,
    pub before: Word,
    pub children: Vec<Child>,
}

/// A table. When it was read from a text its rules rise by state and symbol.
#[derive(Clone, Debug, PartialEq, Eq, Hash)]
pub struct Table {
    pub arities: Vec<u8>,
    pub states: u8,
    pub initial: Initial,
    pub rules: Vec<Rule>,
}

impl Rule {
    pub fn key(&self) -> (u8, u8) {
        (self.state, self.symbol)
    }
}

impl Table {
    /// The rules of one state by rising symbol (a stretch, since rules rise).
    pub fn rules_of(&self, state: u8) -> &[Rule] {
        let from = self.rules.partition_point(|rule| rule.state < state);
        let to = self.rules.partition_point(|rule| rule.state <= state);
        &self.rules[from..to]
    }
}

/// Reads a table text, or gives the first refusal in document 01's order.
pub fn read(text: &[u8]) -> Result<Table, Refusal> {
    if text.is_empty() || text.len() > MAX_TEXT {
        return Err(Refusal::new(TEXT_SIZE, 0));
    }
    let mut reading = Reading::default();
    let mut start = 0;
    while start < text.len() {
        let digits = line_from(&text[start..]).ok_or(Refusal::new(LINE, start))?;
        let frame = frame_of(digits).ok_or(Refusal::new(LINE, start))?;
        reading
            .take_frame(&frame)
            .map_err(|number| Refusal::new(number, start))?;
        start += digits.len() + 1;
    }
    reading.finish().ok_or(Refusal::new(KIND, text.len()))
}

/// The first line without its line feed; none where no line feed closes it.
fn line_from(text: &[u8]) -> Option<&[u8]> {
    let length = text.iter().position(|&byte| byte == b'\n')?;
    Some(&text[..length])
}

/// A line's bytes; at least one, since an empty line is no frame.
fn frame_of(digits: &[u8]) -> Option<Vec<u8>> {
    hex::decode(digits).filter(|frame| !frame.is_empty())
}

/// What the lines so far have given.
#[derive(Default)]
struct Reading {
    arities: Vec<u8>,
    head: Option<(u8, Initial)>,
    rules: Vec<Rule>,
    ended: bool,
}

impl Reading {
    /// Takes one frame, or says the number of its first fault.
    fn take_frame(&mut self, frame: &[u8]) -> Result<(), u8> {
        let fields = Fields { rest: &frame[1..] };
        let before_head = self.head.is_none();
        let among_rules = !before_head && !self.ended;
        match frame[0] {
            SYMBOL_FRAME if before_head => self.take_symbol(fields),
            HEAD_FRAME if before_head && !self.arities.is_empty() => self.take_head(fields),
            RULE_FRAME if among_rules => self.take_rule(fields),
            END_FRAME if among_rules => self.take_end(fields),
            _ => Err(KIND),
        }
    }

    fn take_symbol(&mut self, mut fields: Fields) -> Result<(), u8> {
        if self.arities.len() == MAX_SYMBOLS {
            return Err(RANGE);
        }
        let arity = fields.number_in(0, usize::from(MAX_ARITY))?;
        fields.finish()?;
        self.arities.push(arity);
        Ok(())
    }

    fn take_head(&mut self, mut fields: Fields) -> Result<(), u8> {
        let states = fields.number_in(1, usize::from(MAX_STATES))?;
        let before = fields.word()?;
        let state = fields.number_below(usize::from(states))?;
        let after = fields.word()?;
        fields.finish()?;
        let initial = Initial {
            before,
            state,
            after,
        };
        self.head = Some((states, initial));
        Ok(())
    }

    fn take_rule(&mut self, mut fields: Fields) -> Result<(), u8> {
        if self.rules.len() == MAX_RULES {
            return Err(RANGE);
        }
        let states = self
            .head
            .as_ref()
            .map_or(0, |(states, _)| usize::from(*states));
        let state = fields.number_below(states)?;
        let symbol = fields.number_below(self.arities.len())?;
        if self
            .rules
            .last()
            .is_some_and(|last| last.key() >= (state, symbol))
        {
            return Err(KIND);
        }
        let before = fields.word()?;
        let arity = self.arities[usize::from(symbol)];
        let children = fields.children(arity, states)?;
        fields.finish()?;
        self.rules.push(Rule {
            state,
            symbol,
            before,
            children,
        });
        Ok(())
    }

    fn take_end(&mut self, fields: Fields) -> Result<(), u8> {
        fields.finish()?;
        self.ended = true;
        Ok(())
    }

    /// The table, if an end frame has come.
    fn finish(self) -> Option<Table> {
        let (states, initial) = self.head.filter(|_| self.ended)?;
        Some(Table {
            arities: self.arities,
            states,
            initial,
            rules: self.rules,
        })
    }
}

/// The bytes of a frame that are not yet read, taken from left to right.
struct Fields<'frame> {
    rest: &'frame [u8],
}

impl Fields<'_> {
    fn byte(&mut self) -> Result<u8, u8> {
        let (&first, rest) = self.rest.split_first().ok_or(FRAME_LENGTH)?;
        self.rest = rest;
        Ok(first)
    }

    fn number_in(&mut self, least: usize, most: usize) -> Result<u8, u8> {
        let number = self.byte()?;
        if (least..=most).contains(&usize::from(number)) {
            Ok(number)
        } else {
            Err(RANGE)
        }
    }

    fn number_below(&mut self, bound: usize) -> Result<u8, u8> {
        let number = self.byte()?;
        if usize::from(number) < bound {
            Ok(number)
        } else {
            Err(RANGE)
        }
    }

    fn word(&mut self) -> Result<Word, u8> {
        let length = usize::from(self.number_in(0, usize::from(MAX_WORD))?);
        if self.rest.len() < length {
            return Err(FRAME_LENGTH);
        }
        let (letters, rest) = self.rest.split_at(length);
        self.rest = rest;
        Ok(letters.to_vec())
    }

    fn children(&mut self, arity: u8, states: usize) -> Result<Vec<Child>, u8> {
        let mut children = Vec::with_capacity(usize::from(arity));
        for _ in 0..arity {
            let state = self.number_below(states)?;
            let after = self.word()?;
            children.push(Child { state, after });
        }
        Ok(children)
    }

    /// No byte may be left over.
    fn finish(&self) -> Result<(), u8> {
        if self.rest.is_empty() {
            Ok(())
        } else {
            Err(FRAME_LENGTH)
        }
    }
}

/// The text of a table. It does not ask whether the table keeps the limits,
/// so that the generator can write tables that do not.
pub fn write(table: &Table) -> Vec<u8> {
    text_of_frames(&frames(table))
}

pub fn text_of_frames(frames: &[Vec<u8>]) -> Vec<u8> {
    let mut text = Vec::new();
    for frame in frames {
        hex::encode_onto(frame, &mut text);
        text.push(b'\n');
    }
    text
}

/// The frames of a table in their order.
pub fn frames(table: &Table) -> Vec<Vec<u8>> {
    let mut frames = Vec::with_capacity(table.arities.len() + table.rules.len() + 2);
    frames.extend(table.arities.iter().map(|&arity| vec![SYMBOL_FRAME, arity]));
    frames.push(head_frame(table));
    frames.extend(table.rules.iter().map(rule_frame));
    frames.push(vec![END_FRAME]);
    frames
}

fn head_frame(table: &Table) -> Vec<u8> {
    let mut frame = vec![HEAD_FRAME, table.states];
    push_word(&table.initial.before, &mut frame);
    frame.push(table.initial.state);
    push_word(&table.initial.after, &mut frame);
    frame
}

pub fn rule_frame(rule: &Rule) -> Vec<u8> {
    let mut frame = vec![RULE_FRAME, rule.state, rule.symbol];
    push_word(&rule.before, &mut frame);
    for child in &rule.children {
        frame.push(child.state);
        push_word(&child.after, &mut frame);
    }
    frame
}

/// The length is one byte; the generator never writes a longer word.
fn push_word(word: &[u8], frame: &mut Vec<u8>) {
    frame.push(word.len() as u8);
    frame.extend_from_slice(word);
}
