//! One controller: a slot after another, round by round.

use crate::duty::{Duty, Outcome, Value};
use crate::refusal::Refusal;
use crate::rounds::{Word, confirm, lead, poll};
use crate::sets::Sealed;

/// Where a phase stands, and what is held there.
#[derive(Clone, Copy, Debug, PartialEq, Eq)]
enum Stage {
    Poll { held: Value },
    Confirm { held: Value, polled: Word },
    Lead { confirmed: Value, sure: bool },
}

/// What a hearing answers.
#[derive(Clone, Copy, Debug, PartialEq, Eq)]
pub enum Heard {
    /// The round now due.
    Round(usize),
    /// The slot closed with this value, and the duty did this with it.
    Closed(Value, Outcome),
}

/// A controller on its own sealed table.
#[derive(Clone, Debug)]
pub struct Controller {
    table: Sealed,
    duty: Duty,
    pending: Value,
    /// The phase of the slot, from 0.
    phase: usize,
    stage: Stage,
}

impl Controller {
    /// Opens a controller with a first proposal.
    pub fn open(table: Sealed, duty: Duty, first: Value) -> Result<Controller, Refusal> {
        if !duty.fits(first) {
            return Err(Refusal::Unfit);
        }
        Ok(Controller {
            table,
            duty,
            pending: first,
            phase: 0,
            stage: Stage::Poll { held: first },
        })
    }

    pub fn table(&self) -> &Sealed {
        &self.table
    }

    pub fn duty(&self) -> &Duty {
        &self.duty
    }

    /// The round now due, from 1.
    pub fn round(&self) -> usize {
        let within_phase = match self.stage {
            Stage::Poll { .. } => 1,
            Stage::Confirm { .. } => 2,
            Stage::Lead { .. } => 3,
        };
        3 * self.phase + within_phase
    }

    /// The word for the round now due.
    pub fn speak(&self) -> Word {
        match self.stage {
            Stage::Poll { held } => Some(held),
            Stage::Confirm { polled, .. } => polled,
            Stage::Lead { confirmed, .. } => Some(confirmed),
        }
    }

    /// Replaces the pending proposal; the running slot stays as it is.
    pub fn offer(&mut self, value: Value) -> Result<(), Refusal> {
        if !self.duty.fits(value) {
            return Err(Refusal::Unfit);
        }
        self.pending = value;
        Ok(())
    }

    /// Hears one row.
    pub fn hear(&mut self, row: &[Word]) -> Result<Heard, Refusal> {
        if row.len() != self.table.n() {
            return Err(Refusal::RowLength);
        }
        let row: Vec<Word> = row
            .iter()
            .map(|word| word.filter(|&value| self.duty.fits(value)))
            .collect();
        match self.stage {
            Stage::Poll { held } => {
                let polled = poll(&self.table, &row);
                self.stage = Stage::Confirm { held, polled };
            }
            Stage::Confirm { held, .. } => {
                let (confirmed, sure) = confirm(&self.table, held, &row);
                self.stage = Stage::Lead { confirmed, sure };
            }
            Stage::Lead { confirmed, sure } => {
                let held = lead(self.table.leads()[self.phase], confirmed, sure, &row);
                if self.phase + 1 == self.table.leads().len() {
                    return self.close(held);
                }
                self.phase += 1;
                self.stage = Stage::Poll { held };
            }
        }
        Ok(Heard::Round(self.round()))
    }

    /// Closes the slot and begins the next with the pending proposal.
    fn close(&mut self, value: Value) -> Result<Heard, Refusal> {
        let outcome = self.duty.take(value)?;
        self.phase = 0;
        self.stage = Stage::Poll { held: self.pending };
        Ok(Heard::Closed(value, outcome))
    }
}
