// The intended differences between the crate's reader and ours, each a switch of the adjusted reader.

use std::cell::Cell;

/// The names, in the order of the bits of a set.
pub const NAMES: [&str; 14] = [
    "token-ends-at-LF",
    "token-ends-at-}",
    "token-ends-at-=",
    "slash-keeps-its-byte",
    "comment-opening-star",
    "comment-every-star",
    "comment-end-behind-star",
    "plus-in-unit",
    "several-0x",
    "plus-behind-0x",
    "text-limit",
    "input-limit",
    "unexpected-end-fault",
    "first-fault-repeats",
];

pub const TOKEN_ENDS_AT_LF: usize = 0;
pub const TOKEN_ENDS_AT_BRACE: usize = 1;
pub const TOKEN_ENDS_AT_EQUALS: usize = 2;
pub const SLASH_KEEPS_ITS_BYTE: usize = 3;
pub const COMMENT_OPENING_STAR: usize = 4;
pub const COMMENT_EVERY_STAR: usize = 5;
pub const COMMENT_END_BEHIND_STAR: usize = 6;
pub const PLUS_IN_UNIT: usize = 7;
pub const SEVERAL_0X: usize = 8;
pub const PLUS_BEHIND_0X: usize = 9;
pub const TEXT_LIMIT: usize = 10;
pub const INPUT_LIMIT: usize = 11;
pub const UNEXPECTED_END_FAULT: usize = 12;
pub const FIRST_FAULT_REPEATS: usize = 13;

/// Which differences are switched on, the two limits that go with two of them, and which switches were asked for. A reader asks only
/// where the answer matters: where none of a set's switches was asked for, the set changed nothing.
#[derive(Clone)]
pub struct Switches {
    pub set: u32,
    pub text_limit: usize,
    pub input_limit: u64,
    pub asked: Cell<u32>,
}

impl Switches {
    pub fn on(&self, switch: usize) -> bool {
        self.asked.set(self.asked.get() | 1 << switch);
        self.set >> switch & 1 == 1
    }

    /// `all`, `none`, or names with commas between.
    pub fn set_of(words: &str) -> Option<u32> {
        match words {
            "all" => Some((1 << NAMES.len()) - 1),
            "none" => Some(0),
            _ => words.split(',').try_fold(0, |set, word| {
                let bit = NAMES.iter().position(|name| *name == word)?;
                Some(set | 1 << bit)
            }),
        }
    }

    pub fn names_of(set: u32) -> Vec<&'static str> {
        (0..NAMES.len()).filter(|bit| set >> bit & 1 == 1).map(|bit| NAMES[bit]).collect()
    }
}
