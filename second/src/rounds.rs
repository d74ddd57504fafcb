//! The three rounds of a phase, as they are defined. In the rows given here
//! an unfit value is already entered as nothing.

use crate::duty::Value;
use crate::sets::{Group, Sealed, outside};

/// A word: one value, or nothing.
pub type Word = Option<Value>;

/// The controllers whose word in the row is this value.
pub fn group_of(value: Value, row: &[Word]) -> Group {
    (0..row.len()).filter(|&i| row[i] == Some(value)).collect()
}

/// The different values of a row, in the order of their lowest places.
fn values(row: &[Word]) -> Vec<Value> {
    let mut found = Vec::new();
    for value in row.iter().flatten() {
        if !found.contains(value) {
            found.push(*value);
        }
    }
    found
}

/// Poll: the value whose group is enough, or nothing.
pub fn poll(table: &Sealed, row: &[Word]) -> Word {
    values(row)
        .into_iter()
        .find(|&v| table.enough(&group_of(v, row)))
}

/// A value is weighty when the controllers outside its group are not enough.
fn weighty(table: &Sealed, value: Value, row: &[Word]) -> bool {
    !table.enough(&outside(&group_of(value, row), table.n()))
}

/// Confirm: the weighty value at the lowest place, or the value held without
/// one; and whether it is sure, its group being enough.
pub fn confirm(table: &Sealed, held: Value, row: &[Word]) -> (Value, bool) {
    let found = values(row).into_iter().find(|&v| weighty(table, v, row));
    let z = found.unwrap_or(held);
    (z, table.enough(&group_of(z, row)))
}

/// Lead: the value confirmed if sure; if not, the lead's word, or the value
/// confirmed where the lead's word is nothing.
pub fn lead(lead: usize, confirmed: Value, sure: bool, row: &[Word]) -> Value {
    if sure {
        confirmed
    } else {
        row[lead].unwrap_or(confirmed)
    }
}
