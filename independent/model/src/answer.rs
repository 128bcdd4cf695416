//! Answers: refusals, outcomes, hops, and the answer word of the C interface.

/// A refusal's number and index.
#[derive(Clone, Copy, PartialEq, Eq, Debug)]
pub struct Refusal {
    pub number: u8,
    pub index: u16,
}

impl Refusal {
    pub fn new(number: u8, index: u16) -> Refusal {
        Refusal { number, index }
    }

    /// The refusal of that number, with index 0, unless the test passed.
    pub fn unless(number: u8, passed: bool) -> Result<(), Refusal> {
        if passed {
            Ok(())
        } else {
            Err(Refusal::new(number, 0))
        }
    }

    pub fn word(self) -> u64 {
        REFUSED | u64::from(self.number) << 8 | u64::from(self.index) << 16
    }
}

/// Node number of the host and of the root complex.
pub const COMPLEX: u16 = 0xFFFF;

#[derive(Clone, Copy, PartialEq, Eq, Debug)]
pub enum Letter {
    V,
    B,
    E,
    X,
}

impl Letter {
    fn code(self) -> u64 {
        match self {
            Letter::V => 0,
            Letter::B => 1,
            Letter::E => 5,
            Letter::X => 7,
        }
    }
}

#[derive(Clone, Copy, PartialEq, Eq, Debug)]
pub enum Outcome {
    Delivered { checked: bool },
    Host,
    Unclaimed,
    Undefined,
    Violation { letter: Letter, abort: bool },
}

const REFUSED: u64 = 6;

impl Outcome {
    /// The answer word for an outcome at a node after so many hops.
    pub fn word(self, node: u16, hops: u16) -> u64 {
        let (kind, letter, abort) = match self {
            Outcome::Delivered { checked: false } => (0, 0, false),
            Outcome::Delivered { checked: true } => (1, 0, false),
            Outcome::Host => (2, 0, false),
            Outcome::Unclaimed => (3, 0, false),
            Outcome::Undefined => (4, 0, false),
            Outcome::Violation { letter, abort } => (5, letter.code(), abort),
        };
        kind | letter << 8 | u64::from(node) << 16 | u64::from(hops) << 32 | u64::from(abort) << 48
    }
}

/// The answer word for a part of an image, of length 0 where there is none.
pub fn part_word(offset: u16, length: u16) -> u64 {
    u64::from(offset) << 16 | u64::from(length) << 32
}

#[derive(Clone, Copy, PartialEq, Eq, Debug)]
pub enum Action {
    Up = 1,
    Redirected = 2,
    Forwarded = 3,
    Direct = 4,
    Reflected = 5,
    Down = 6,
    End = 7,
}

#[derive(Clone, Copy, PartialEq, Eq, Debug)]
pub struct Hop {
    pub index: u16,
    pub action: Action,
}

/// An answer word taken apart again, to print and count it.
#[derive(Clone, Copy, PartialEq, Eq, Debug)]
pub struct Word(pub u64);

impl Word {
    pub fn byte(self, number: u32) -> u8 {
        (self.0 >> (8 * number)) as u8
    }

    pub fn refused(self) -> bool {
        self.0 & 0xFF == REFUSED
    }

    pub fn refusal_number(self) -> u8 {
        self.byte(1)
    }

    pub fn node(self) -> u16 {
        (self.0 >> 16) as u16
    }

    pub fn hops(self) -> usize {
        usize::from((self.0 >> 32) as u16)
    }

    /// The offset and the length of the ACS structure that `acs_fill` found.
    pub fn part(self) -> (u16, u16) {
        ((self.0 >> 16) as u16, (self.0 >> 32) as u16)
    }

    /// The outcome as `acsroute` prints it, up to the hops.
    pub fn outcome_text(self) -> String {
        let node = self.node();
        match self.byte(0) {
            0 => format!("delivered {node} unvalidated"),
            1 => format!("delivered {node} checked"),
            2 => format!("host {node}"),
            3 => format!("unclaimed {node}"),
            4 => format!("undefined {node}"),
            5 => {
                let end = if self.byte(6) == 1 { "abort" } else { "drop" };
                format!("violation {node} {} {end}", self.letter())
            }
            kind => format!("kind {kind} at {node}"),
        }
    }

    pub fn letter(self) -> char {
        match self.byte(1) {
            0 => 'V',
            1 => 'B',
            5 => 'E',
            7 => 'X',
            _ => '?',
        }
    }
}
