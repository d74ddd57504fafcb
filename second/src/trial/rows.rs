//! Values and rows for the texts.

use super::random::Random;
use crate::controller::Controller;
use crate::duty::{Duty, Value};
use crate::rounds::Word;
use crate::sets::outside;

/// A few values that are spoken for a while.
#[derive(Clone, Debug)]
pub struct Pool {
    fitting: Vec<Value>,
    unfit: Vec<Value>,
}

impl Pool {
    /// A few values for a duty as it stands.
    pub fn new(rng: &mut Random, duty: &Duty) -> Pool {
        let count = rng.between(1, 4);
        Pool {
            fitting: (0..count).map(|_| fitting(rng, duty)).collect(),
            unfit: (0..2).map(|_| unfit(rng, duty)).collect(),
        }
    }

    /// A fitting value.
    pub fn value(&self, rng: &mut Random) -> Value {
        *rng.pick(&self.fitting)
    }

    /// A value that seldom does not fit.
    pub fn any(&self, rng: &mut Random) -> Value {
        if rng.chance(80) {
            *rng.pick(&self.unfit)
        } else {
            self.value(rng)
        }
    }

    /// A word of a liar: nothing, a fitting value or an unfit one.
    pub fn lie(&self, rng: &mut Random) -> Word {
        match rng.below(10) {
            0..3 => None,
            3..5 => Some(*rng.pick(&self.unfit)),
            _ => Some(self.value(rng)),
        }
    }
}

/// A value that fits, often one at an edge.
pub fn fitting(rng: &mut Random, duty: &Duty) -> Value {
    match duty {
        Duty::Plans { highest, .. } => Value::Plan(match rng.below(4) {
            0 => 1,
            1 => *highest,
            2 => (*highest).min(3),
            _ => rng.between(1, *highest as usize) as u32,
        }),
        Duty::Board { feed, bays } => {
            let bay = match rng.below(3) {
                0 => 0,
                1 => bays.len() - 1,
                _ => rng.below(bays.len()),
            };
            let others: u32 = bays.iter().sum::<u32>() - bays[bay];
            let room = feed - others;
            let amps = match rng.below(7) {
                0 => 0,
                1 => 1_000,
                2 => room,
                3 => room + 1,
                4 => room / 2,
                5 => rng.below(*feed as usize + 1) as u32,
                _ => rng.below(1_001) as u32,
            };
            Value::Grant {
                bay: bay as u32,
                amps: amps.min(1_000),
            }
        }
    }
}

/// A value that does not fit, often one at an edge.
pub fn unfit(rng: &mut Random, duty: &Duty) -> Value {
    match duty {
        Duty::Plans { highest, .. } => {
            Value::Plan(*rng.pick(&[0, highest + 1, 10_000, 65_536, 65_537, 99_999]))
        }
        Duty::Board { bays, .. } => {
            let end = bays.len() as u32;
            let (bay, amps) = *rng.pick(&[
                (end, 0),
                (0, 1_001),
                (end - 1, 1_001),
                (end, 1_001),
                (64, 5),
                (256, 1),
                (0, 65_536),
                (65_536, 0),
                (99_999, 99_999),
            ]);
            Value::Grant { bay, amps }
        }
    }
}

/// A row of the right length for a controller. Most rows stand at an edge of
/// the rules: the voices of one value are a survivor set, or one less, or
/// those outside a survivor set, or one more.
pub fn row(rng: &mut Random, controller: &Controller, pool: &Pool) -> Vec<Word> {
    let table = controller.table();
    let n = table.n();
    let main = match controller.speak() {
        Some(value) if rng.chance(600) => Some(value),
        _ => Some(pool.value(rng)),
    };
    let rest = match rng.below(3) {
        0 => None,
        _ => Some(pool.value(rng)),
    };
    let mut row = match rng.below(100) {
        0..35 => vec![main; n],
        35..80 => {
            let set = rng.pick(table.sets());
            let mut voices = if rng.chance(600) {
                set.clone()
            } else {
                outside(set, n)
            };
            if rng.chance(500) {
                let one = rng.below(n);
                if voices.contains(&one) {
                    voices.retain(|&c| c != one);
                } else {
                    voices.push(one);
                }
            }
            (0..n)
                .map(|c| if voices.contains(&c) { main } else { rest })
                .collect()
        }
        80..90 => (0..n)
            .map(|_| if rng.chance(500) { main } else { rest })
            .collect(),
        _ => (0..n).map(|_| pool.lie(rng)).collect(),
    };
    if rng.chance(300) {
        let place = rng.below(n);
        row[place] = pool.lie(rng);
    }
    row
}

/// The line of a row.
pub fn hear_line(row: &[Word]) -> Vec<u8> {
    let mut line = String::from("hear");
    for &word in row {
        line.push('\t');
        match word {
            Some(value) => line.push_str(&value.to_string()),
            None => line.push('-'),
        }
    }
    line.into_bytes()
}
