//! Making a text that shows a difference as short as can be.

use super::program::{Ran, run_program};
use crate::form::number;
use crate::sets::MOST_CONTROLLERS;
use crate::yard::{lines, run};
use std::io;
use std::time::{Duration, Instant};

/// How long shrinking may take.
const PATIENCE: Duration = Duration::from_secs(60);

/// Pieces so few are dropped together wherever they stand.
const FEW: usize = 6;

/// Two runs of one text that differ.
pub struct Difference {
    pub program: Ran,
    pub second: Vec<u8>,
}

/// Runs both on a text; the answers of the second if they agree.
pub fn compare(path: &str, text: &[u8]) -> io::Result<Result<Vec<u8>, Box<Difference>>> {
    let second = run(text);
    let program = run_program(path, text, second.len() + 4_096)?;
    if program.trouble.is_none() && program.out == second {
        return Ok(Ok(second));
    }
    Ok(Err(Box::new(Difference { program, second })))
}

/// Makes a text that shows a difference shorter while it still shows one.
pub fn shrink(path: &str, text: &[u8], found: &Difference) -> io::Result<Vec<u8>> {
    let mut shrinker = Shrinker {
        path,
        until: Instant::now() + PATIENCE,
        text: text.to_vec(),
    };
    // What comes after the first answer that differs is seldom needed.
    let agreed = lines(&found.program.out)
        .iter()
        .zip(lines(&found.second))
        .take_while(|(one, other)| *one == other)
        .count();
    let whole = split_after(text, b'\n');
    shrinker.attempt(whole.iter().take(agreed + 1).flatten().copied().collect())?;
    loop {
        let before = shrinker.text.clone();
        shrinker.drop_lines()?;
        shrinker.drop_controllers()?;
        shrinker.drop_fields()?;
        shrinker.drop_bytes()?;
        shrinker.plainer_fields()?;
        if shrinker.text == before || shrinker.tired() {
            return Ok(shrinker.text);
        }
    }
}

struct Shrinker<'a> {
    path: &'a str,
    until: Instant,
    /// The shortest text so far.
    text: Vec<u8>,
}

impl Shrinker<'_> {
    fn tired(&self) -> bool {
        Instant::now() > self.until
    }

    /// Keeps the shorter text if it still shows a difference.
    fn attempt(&mut self, shorter: Vec<u8>) -> io::Result<bool> {
        let shows = !self.tired() && compare(self.path, &shorter)?.is_err();
        if shows {
            self.text = shorter;
        }
        Ok(shows)
    }

    /// Drops pieces, many at once and then fewer, from the end on. A few are
    /// tried at every place, for lines often go in threes.
    fn drop_pieces(
        &mut self,
        mut pieces: Vec<Vec<u8>>,
        join: impl Fn(&[Vec<u8>]) -> Vec<u8>,
    ) -> io::Result<()> {
        let mut many = pieces.len().div_ceil(2);
        while many > 0 && !self.tired() {
            let mut end = pieces.len();
            while end > 0 && !self.tired() {
                let start = end.saturating_sub(many);
                let mut fewer = pieces.clone();
                fewer.drain(start..end);
                if self.attempt(join(&fewer))? {
                    pieces = fewer;
                    end = start;
                } else {
                    end -= if many > FEW { end - start } else { 1 };
                }
                end = end.min(pieces.len());
            }
            many = if many > FEW { many / 2 } else { many - 1 };
        }
        Ok(())
    }

    fn drop_lines(&mut self) -> io::Result<()> {
        self.drop_pieces(split_after(&self.text, b'\n'), |pieces| pieces.concat())
    }

    /// Drops fields line by line.
    fn drop_fields(&mut self) -> io::Result<()> {
        let count = split_after(&self.text, b'\n').len();
        for line in (0..count).rev() {
            if self.tired() {
                break;
            }
            let all = split_after(&self.text, b'\n');
            if line >= all.len() {
                continue;
            }
            let before = all[..line].concat();
            let after = all[line + 1..].concat();
            self.drop_pieces(split_before(&all[line], b'\t'), |pieces| {
                [before.clone(), pieces.concat(), after.clone()].concat()
            })?;
        }
        Ok(())
    }

    /// Takes controllers out of the yard, whole text.
    fn drop_controllers(&mut self) -> io::Result<()> {
        for place in (0..MOST_CONTROLLERS).rev() {
            let shorter = without(&self.text, place);
            if shorter != self.text {
                self.attempt(shorter)?;
            }
        }
        Ok(())
    }

    /// Puts plainer fields for those that are there. The text gets no longer,
    /// and where it keeps its length it comes earlier in the order of bytes.
    fn plainer_fields(&mut self) -> io::Result<()> {
        let count = fields(&self.text).len();
        for place in 0..count {
            if self.tired() {
                break;
            }
            for plain in ["-", "0", "1", "0/0", "0/1", "1/0", "1/1"] {
                let mut all = fields(&self.text);
                all[place].0 = plain.as_bytes().to_vec();
                let other = join(&all);
                if (other.len(), &other) < (self.text.len(), &self.text) && self.attempt(other)? {
                    break;
                }
            }
        }
        Ok(())
    }

    fn drop_bytes(&mut self) -> io::Result<()> {
        let pieces = self.text.iter().map(|&b| vec![b]).collect();
        self.drop_pieces(pieces, |pieces| pieces.concat())
    }
}

/// The pieces of a text, each ending with the byte but maybe the last.
fn split_after(text: &[u8], byte: u8) -> Vec<Vec<u8>> {
    text.split_inclusive(|&b| b == byte)
        .map(|piece| piece.to_vec())
        .collect()
}

/// The pieces of a text, each beginning with the byte but maybe the first; a
/// line feed at the end is a piece of its own.
fn split_before(text: &[u8], byte: u8) -> Vec<Vec<u8>> {
    let mut pieces: Vec<Vec<u8>> = vec![Vec::new()];
    for &b in text {
        if b == byte || b == b'\n' {
            pieces.push(Vec::new());
        }
        if let Some(last) = pieces.last_mut() {
            last.push(b);
        }
    }
    pieces
}

/// The fields of a text, each with the tab or line feed after it.
fn fields(text: &[u8]) -> Vec<(Vec<u8>, Vec<u8>)> {
    text.split_inclusive(|&b| b == b'\t' || b == b'\n')
        .map(|piece| match piece {
            [field @ .., end @ (b'\t' | b'\n')] => (field.to_vec(), vec![*end]),
            field => (field.to_vec(), Vec::new()),
        })
        .collect()
}

/// The text of such fields.
fn join(fields: &[(Vec<u8>, Vec<u8>)]) -> Vec<u8> {
    fields
        .iter()
        .flat_map(|(field, end)| [field.clone(), end.clone()].concat())
        .collect()
}

/// A text with one controller less: the count is one less, it is in no set
/// and no row, and those above it move down.
fn without(text: &[u8], place: usize) -> Vec<u8> {
    let mut lines: Vec<Vec<u8>> = Vec::new();
    for line in text.split(|&b| b == b'\n') {
        let mut fields: Vec<Vec<u8>> = line.split(|&b| b == b'\t').map(|f| f.to_vec()).collect();
        match fields[0].as_slice() {
            b"controllers" => {
                for count in &mut fields[1..] {
                    lower(count, place);
                }
            }
            b"set" => {
                let gone = place.to_string().into_bytes();
                fields.retain(|field| *field != gone);
                for member in &mut fields[1..] {
                    lower(member, place);
                }
            }
            b"hear" if place + 1 < fields.len() => {
                fields.remove(place + 1);
            }
            _ => {}
        }
        lines.push(fields.join(&b'\t'));
    }
    lines.join(&b'\n')
}

/// Lowers a number above `place` by one.
fn lower(field: &mut Vec<u8>, place: usize) {
    if let Some(number) = number(field)
        && number as usize > place
    {
        *field = (number - 1).to_string().into_bytes();
    }
}
