//! The twelve calls: what is lent to them, and what each can be refused.

use crate::orders::Line;

/// All that a call can be lent; each takes what it needs.
#[derive(Clone, Default, PartialEq, Eq)]
pub struct Lent {
    pub book: Vec<u8>,
    pub code: Vec<u8>,
    pub sheet: Vec<u16>,
    pub lines: Vec<Line>,
    pub count: u16,
    pub index: Vec<u16>,
    pub text: Vec<u8>,
    pub out: Vec<u8>,
}

impl Lent {
    /// Makes the sheet, the lines and the index what they were, in the same memory.
    pub fn restore(&mut self, from: &Lent) {
        self.sheet.copy_from_slice(&from.sheet);
        self.lines.copy_from_slice(&from.lines);
        self.count = from.count;
        self.index.copy_from_slice(&from.index);
    }
}

/// A call, with the numbers that it is given.
#[derive(Clone, Copy, Debug)]
pub enum Call {
    Check,
    Lookup,
    Load,
    Write,
    Index,
    Key {
        option: u64,
        negative: bool,
    },
    Withdraw {
        k: u64,
    },
    Step {
        rule: u64,
        place: u64,
        i: u64,
        j: u64,
    },
    Run {
        budget: u64,
    },
    Report,
    Complete,
    Import,
}

/// Every call, with the answers that it can give: 0 where it is accepted, then its refusals.
pub const ANSWERS: [(&str, &[u64]); 12] = [
    ("check", &[0, 1, 2, 3, 4, 5, 6]),
    ("lookup", &[0, 1, 2, 3, 4, 5, 6, 7]),
    ("load", &[0, 11, 1, 2, 3, 4, 5, 6]),
    ("write", &[0, 11, 1, 2, 3, 4, 5, 6, 12]),
    ("index", &[0, 11, 12]),
    ("keying", &[0, 11, 14, 7, 8, 12]),
    ("withdrawal", &[0, 11, 1, 2, 3, 4, 5, 6, 13, 8, 12]),
    ("step", &[0, 11, 9, 10, 12]),
    ("run", &[0, 11, 12]),
    ("report", &[0, 11, 12]),
    ("complete", &[0, 11, 1, 2, 3, 4, 5, 6]),
    ("import", &[0, 15, 16, 12]),
];

impl Call {
    pub fn name(self) -> &'static str {
        match self {
            Call::Check => "check",
            Call::Lookup => "lookup",
            Call::Load => "load",
            Call::Write => "write",
            Call::Index => "index",
            Call::Key { .. } => "keying",
            Call::Withdraw { .. } => "withdrawal",
            Call::Step { .. } => "step",
            Call::Run { .. } => "run",
            Call::Report => "report",
            Call::Complete => "complete",
            Call::Import => "import",
        }
    }

    /// Whether the call writes nothing that it reads, so that it can be made again and again.
    pub fn repeats(self) -> bool {
        use Call::{Check, Complete, Import, Index, Load, Lookup, Report, Write};
        matches!(
            self,
            Check | Lookup | Load | Write | Index | Report | Complete | Import
        )
    }

    /// Whether the call wants the index of its sheet, and brings it up to date.
    pub fn keeps_index(self) -> bool {
        use Call::{Key, Run, Step, Withdraw};
        matches!(
            self,
            Key { .. } | Withdraw { .. } | Step { .. } | Run { .. }
        )
    }
}

/// The refusal of an answer, 0 where the call is accepted.
pub fn refusal(answer: u64) -> u64 {
    answer % 256
}
