//! The limits of tables and trees, the sizes of what is lent besides, and how much stack the linked calls
//! take.

/// Bytes of a table text, at least 1. A form is never longer than its table's text.
pub const TEXT: usize = 32_768;
/// Symbols of a table, at least 1.
pub const SYMBOLS: usize = 64;
/// Trees below a symbol, at least 0.
pub const ARITY: usize = 4;
/// States of a table, at least 1.
pub const STATES: usize = 64;
/// Letters of a word in a rule, at least 0.
pub const LETTERS: usize = 32;
/// Rules of a table, at least 0.
pub const RULES: usize = 512;
/// Symbols of a tree, at least 1.
pub const TREE: usize = 32_768;
/// Levels of a tree, at least 1: a lone leaf has depth 1.
pub const DEPTH: usize = 64;
/// A room of this length takes the word of any tree: a tree of n symbols is written with 2 n + 1
/// words of the table.
pub const LONGEST: usize = (2 * TREE + 1) * LETTERS;
/// Bytes of an opened table.
pub const FRAMES: usize = 16_448;
/// 64-bit numbers of an opened table.
pub const NUMBERS: usize = 4_688;
/// 32-bit numbers of the plan that finding a word is lent.
pub const PLAN: usize = 32_768;
/// Entries of an answer, which [`crate::lent::Answer`] names.
pub const ANSWER: usize = 8;

/// Bytes of stack that a word by a text takes at most. This and the next twelve are the bounds that the
/// C header gives for the linked calls, as `examples/c/stack.c` measures them.
pub const STACK_WORD: usize = 204_800;
/// Bytes of stack that a judgement by a text takes at most.
pub const STACK_JUDGE: usize = 65_536;
/// Bytes of stack that a form takes at most.
pub const STACK_FORM: usize = 65_536;
/// Bytes of stack that a comparison takes at most.
pub const STACK_COMPARE: usize = 188_416;
/// Bytes of stack that opening a table takes at most.
pub const STACK_OPEN: usize = 28_672;
/// Bytes of stack that a word by an opened table takes at most.
pub const STACK_FIND: usize = 8_192;
/// Bytes of stack that the judgement of an opened table takes at most.
pub const STACK_JUDGE_OPENED: usize = 1_536;
/// Bytes of stack that the word of a record by a text takes at most.
pub const STACK_RECORD_WORD: usize = 241_664;
/// Bytes of stack that the tree of a record by a text takes at most.
pub const STACK_RECORD_TREE: usize = 65_536;
/// Bytes of stack that the record of a tree by a text takes at most.
pub const STACK_TREE_RECORD: usize = 65_536;
/// Bytes of stack that the word of a record by an opened table takes at most.
pub const STACK_RECORD_WORD_OPENED: usize = 8_192;
/// Bytes of stack that the tree of a record by an opened table takes at most.
pub const STACK_RECORD_TREE_OPENED: usize = 512;
/// Bytes of stack that the record of a tree by an opened table takes at most.
pub const STACK_TREE_RECORD_OPENED: usize = 12_288;
