//! The yard text: a line in, an answer out.

use crate::controller::{Controller, Heard};
use crate::duty::{Duty, Kind, Outcome};
use crate::form::{self, Fields, TAB};
use crate::refusal::Refusal;
use crate::sets::{Draft, Group, Sealed};
use std::io::Write;

/// The most bytes of a line, its line feed not counted.
pub const MOST_BYTES: usize = 256;

/// The most lines of a run.
pub const MOST_LINES: usize = 1_000_000;

/// The answer to a line that is not refused.
#[derive(Clone, Debug, PartialEq, Eq)]
pub enum Answer {
    Ok,
    Sealed(Group),
    Heard(Heard),
}

/// What stands in a run of the yard text.
#[derive(Clone, Debug, Default)]
pub struct Yard {
    lines: usize,
    draft: Option<Draft>,
    sealed: Option<Sealed>,
    controller: Option<Controller>,
}

impl Yard {
    /// A run before its first line.
    pub fn new() -> Yard {
        Yard::default()
    }

    pub fn draft(&self) -> Option<&Draft> {
        self.draft.as_ref()
    }

    pub fn sealed(&self) -> Option<&Sealed> {
        self.sealed.as_ref()
    }

    pub fn controller(&self) -> Option<&Controller> {
        self.controller.as_ref()
    }

    /// Has the run had its last line?
    pub fn ended(&self) -> bool {
        self.lines >= MOST_LINES
    }

    /// Takes a line, without its line feed, and appends the bytes of the
    /// answer to `out`. Past the last line of a run nothing is done.
    pub fn line(&mut self, line: &[u8], out: &mut Vec<u8>) {
        if self.ended() {
            return;
        }
        self.lines += 1;
        let answer = self.answer(line);
        write_answer(self.lines, &answer, out).expect("a list of bytes takes any bytes");
    }

    /// Works out the answer to a line. Nothing changes where it is refused.
    pub fn answer(&mut self, line: &[u8]) -> Result<Answer, Refusal> {
        if line.len() > MOST_BYTES {
            return Err(Refusal::Form { field: 0 });
        }
        let mut parts: Vec<&[u8]> = line.split(|&b| b == TAB).collect();
        let first = parts.remove(0);
        let fields = Fields::after_first(parts);
        match first {
            b"controllers" => self.controllers(fields),
            b"set" => self.set(fields),
            b"seal" => self.seal(fields),
            b"plans" => self.plans(fields),
            b"board" => self.board(fields),
            b"offer" => self.offer(fields),
            b"hear" => self.hear(fields),
            _ => Err(Refusal::Form { field: 1 }),
        }
    }

    /// `controllers` n: begins anew.
    fn controllers(&mut self, mut fields: Fields) -> Result<Answer, Refusal> {
        let n = fields.next(form::number)?;
        fields.end()?;
        let draft = Draft::new(n as usize)?;
        self.draft = Some(draft);
        self.sealed = None;
        self.controller = None;
        Ok(Answer::Ok)
    }

    /// `set` and rising controller numbers: adds a set to the draft.
    fn set(&mut self, mut fields: Fields) -> Result<Answer, Refusal> {
        let draft = self.draft.as_mut().ok_or(Refusal::NotThere)?;
        let mut members: Group = Vec::new();
        while fields.more() {
            let before = members.last().copied();
            let member = fields.next(|field| {
                let member = form::number(field)? as usize;
                if before.is_some_and(|b| member <= b) {
                    return None;
                }
                Some(member)
            })?;
            members.push(member);
        }
        draft.add(members)?;
        Ok(Answer::Ok)
    }

    /// `seal`: seals a copy of the draft.
    fn seal(&mut self, fields: Fields) -> Result<Answer, Refusal> {
        let draft = self.draft.as_ref().ok_or(Refusal::NotThere)?;
        fields.end()?;
        let sealed = draft.seal()?;
        let leads = sealed.leads().to_vec();
        self.sealed = Some(sealed);
        Ok(Answer::Sealed(leads))
    }

    /// `plans` highest, first plan: opens a controller with a plan book.
    fn plans(&mut self, mut fields: Fields) -> Result<Answer, Refusal> {
        let table = self.sealed.as_ref().ok_or(Refusal::NotThere)?;
        let highest = fields.next(form::number)?;
        let first = fields.next(|field| form::value(field, Kind::Plans))?;
        fields.end()?;
        let duty = Duty::plans(highest)?;
        self.controller = Some(Controller::open(table.clone(), duty, first)?);
        Ok(Answer::Ok)
    }

    /// `board` bays, feed, first grant: opens a controller with a board.
    fn board(&mut self, mut fields: Fields) -> Result<Answer, Refusal> {
        let table = self.sealed.as_ref().ok_or(Refusal::NotThere)?;
        let bays = fields.next(form::number)?;
        let feed = fields.next(form::number)?;
        let first = fields.next(form::grant)?;
        fields.end()?;
        let duty = Duty::board(bays, feed)?;
        self.controller = Some(Controller::open(table.clone(), duty, first)?);
        Ok(Answer::Ok)
    }

    /// `offer` value: replaces the pending proposal.
    fn offer(&mut self, mut fields: Fields) -> Result<Answer, Refusal> {
        let controller = self.controller.as_mut().ok_or(Refusal::NotThere)?;
        let kind = controller.duty().kind();
        let value = fields.next(|field| form::value(field, kind))?;
        fields.end()?;
        controller.offer(value)?;
        Ok(Answer::Ok)
    }

    /// `hear` and words: one round.
    fn hear(&mut self, mut fields: Fields) -> Result<Answer, Refusal> {
        let controller = self.controller.as_mut().ok_or(Refusal::NotThere)?;
        let kind = controller.duty().kind();
        let mut row = Vec::new();
        while fields.more() {
            row.push(fields.next(|field| form::word(field, kind))?);
        }
        Ok(Answer::Heard(controller.hear(&row)?))
    }
}

/// Appends the line of an answer.
fn write_answer(
    count: usize,
    answer: &Result<Answer, Refusal>,
    out: &mut Vec<u8>,
) -> std::io::Result<()> {
    write!(out, "{count}\t")?;
    match answer {
        Ok(Answer::Ok) => write!(out, "ok")?,
        Ok(Answer::Sealed(leads)) => {
            write!(out, "sealed")?;
            for lead in leads {
                write!(out, "\t{lead}")?;
            }
        }
        Ok(Answer::Heard(Heard::Round(round))) => write!(out, "round\t{round}")?,
        Ok(Answer::Heard(Heard::Closed(value, Outcome::Taken))) => {
            write!(out, "closed\t{value}\ttaken")?
        }
        Ok(Answer::Heard(Heard::Closed(value, Outcome::Aside))) => {
            write!(out, "closed\t{value}\taside")?
        }
        Err(refusal) => write!(out, "refused\t{}\t{}", refusal.number(), refusal.detail())?,
    }
    writeln!(out)
}

/// The lines of a text, each without its line feed. A text that ends right
/// after a line feed has no further line.
pub fn lines(text: &[u8]) -> Vec<&[u8]> {
    let mut lines: Vec<&[u8]> = text.split(|&b| b == b'\n').collect();
    if lines.last().is_some_and(|last| last.is_empty()) {
        lines.pop();
    }
    lines
}

/// Runs a whole text and gives all answers.
pub fn run(text: &[u8]) -> Vec<u8> {
    let mut yard = Yard::new();
    let mut out = Vec::new();
    for line in lines(text) {
        yard.line(line, &mut out);
    }
    out
}
