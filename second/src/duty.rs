//! Values, and the duties that take them: the plan book and the board.

use crate::refusal::Refusal;
use std::fmt;

/// One value: a plan, or a grant of amps to a bay.
#[derive(Clone, Copy, Debug, PartialEq, Eq)]
pub enum Value {
    Plan(u32),
    Grant { bay: u32, amps: u32 },
}

impl fmt::Display for Value {
    fn fmt(&self, f: &mut fmt::Formatter<'_>) -> fmt::Result {
        match self {
            Value::Plan(plan) => write!(f, "{plan}"),
            Value::Grant { bay, amps } => write!(f, "{bay}/{amps}"),
        }
    }
}

/// What became of a value that a duty was told.
#[derive(Clone, Copy, Debug, PartialEq, Eq)]
pub enum Outcome {
    Taken,
    Aside,
}

/// The kinds of duty, and so of values.
#[derive(Clone, Copy, Debug, PartialEq, Eq)]
pub enum Kind {
    Plans,
    Board,
}

/// A duty with its settings and its content.
#[derive(Clone, Debug, PartialEq, Eq)]
pub enum Duty {
    /// The plan book; 0 in force means none yet.
    Plans { highest: u32, in_force: u32 },
    /// The board: the amps of each bay.
    Board { feed: u32, bays: Vec<u32> },
}

impl Duty {
    /// A new plan book.
    pub fn plans(highest: u32) -> Result<Duty, Refusal> {
        if !(1..=9_999).contains(&highest) {
            return Err(Refusal::Settings);
        }
        Ok(Duty::Plans {
            highest,
            in_force: 0,
        })
    }

    /// A new board.
    pub fn board(bays: u32, feed: u32) -> Result<Duty, Refusal> {
        if !(1..=64).contains(&bays) || feed > 32_000 {
            return Err(Refusal::Settings);
        }
        Ok(Duty::Board {
            feed,
            bays: vec![0; bays as usize],
        })
    }

    pub fn kind(&self) -> Kind {
        match self {
            Duty::Plans { .. } => Kind::Plans,
            Duty::Board { .. } => Kind::Board,
        }
    }

    /// Does the value fit? A value of the other kind never does.
    pub fn fits(&self, value: Value) -> bool {
        match (self, value) {
            (Duty::Plans { highest, .. }, Value::Plan(plan)) => plan >= 1 && plan <= *highest,
            (Duty::Board { bays, .. }, Value::Grant { bay, amps }) => {
                (bay as usize) < bays.len() && amps <= 1_000
            }
            _ => false,
        }
    }

    /// Takes a fitting value, or sets it aside.
    pub fn take(&mut self, value: Value) -> Result<Outcome, Refusal> {
        if !self.fits(value) {
            return Err(Refusal::Unfit);
        }
        match (self, value) {
            (Duty::Plans { in_force, .. }, Value::Plan(plan)) => {
                *in_force = plan;
                Ok(Outcome::Taken)
            }
            (Duty::Board { feed, bays }, Value::Grant { bay, amps }) => {
                let mut changed = bays.clone();
                changed[bay as usize] = amps;
                if changed.iter().sum::<u32>() > *feed {
                    return Ok(Outcome::Aside);
                }
                *bays = changed;
                Ok(Outcome::Taken)
            }
            _ => Err(Refusal::Unfit),
        }
    }
}
