//! Reading the fields of a line.

use crate::duty::{Kind, Value};
use crate::refusal::Refusal;
use crate::rounds::Word;

/// The byte between two fields.
pub const TAB: u8 = b'\t';

/// A number: 1 to 5 digits, no needless leading zero.
pub fn number(field: &[u8]) -> Option<u32> {
    if field.is_empty() || field.len() > 5 || !field.iter().all(u8::is_ascii_digit) {
        return None;
    }
    if field.len() > 1 && field[0] == b'0' {
        return None;
    }
    std::str::from_utf8(field).ok()?.parse().ok()
}

/// A grant: bay and amps, two numbers parted by one stroke.
pub fn grant(field: &[u8]) -> Option<Value> {
    let parts: Vec<&[u8]> = field.split(|&b| b == b'/').collect();
    if parts.len() != 2 {
        return None;
    }
    Some(Value::Grant {
        bay: number(parts[0])?,
        amps: number(parts[1])?,
    })
}

/// A value of the given kind.
pub fn value(field: &[u8], kind: Kind) -> Option<Value> {
    match kind {
        Kind::Plans => number(field).map(Value::Plan),
        Kind::Board => grant(field),
    }
}

/// A word of the given kind; the outer `None` is a fault of form.
pub fn word(field: &[u8], kind: Kind) -> Option<Word> {
    if field == b"-" {
        Some(None)
    } else {
        value(field, kind).map(Some)
    }
}

/// Reads the fields after the first, one after another, and counts them.
pub struct Fields<'a> {
    rest: Vec<&'a [u8]>,
    read: usize,
}

impl<'a> Fields<'a> {
    /// The fields after the first.
    pub fn after_first(rest: Vec<&'a [u8]>) -> Fields<'a> {
        Fields { rest, read: 0 }
    }

    /// The next field is at fault: missing, or not what it should be. The
    /// first field of a line is field 1, so these begin at 2.
    fn fault(&self) -> Refusal {
        Refusal::Form {
            field: self.read + 2,
        }
    }

    /// Is there a further field?
    pub fn more(&self) -> bool {
        self.read < self.rest.len()
    }

    /// Reads the next field with one of the readers above.
    pub fn next<T>(&mut self, read: impl Fn(&[u8]) -> Option<T>) -> Result<T, Refusal> {
        let field = self.rest.get(self.read).ok_or(self.fault())?;
        let result = read(field).ok_or(self.fault())?;
        self.read += 1;
        Ok(result)
    }

    /// No field may be left.
    pub fn end(&self) -> Result<(), Refusal> {
        if self.more() {
            return Err(self.fault());
        }
        Ok(())
    }
}
