//! The numbers of document 01, section "Table text".

pub const MAX_TEXT: usize = 32_768;
pub const MAX_SYMBOLS: usize = 64;
pub const MAX_ARITY: u8 = 4;
pub const MAX_STATES: u8 = 64;
pub const MAX_WORD: u8 = 32;
pub const MAX_RULES: usize = 512;
pub const MAX_TREE: usize = 32_768;
pub const MAX_DEPTH: usize = 64;

/// The letter that splits a word into terms.
pub const SPACE: u8 = 0x20;
