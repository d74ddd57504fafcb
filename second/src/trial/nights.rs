//! Writes random texts: nights of a yard, whole or broken.

use super::breaks::{break_line, bytes, long, soup};
use super::families::{family, small_family};
use super::peers::Peers;
use super::random::Random;
use super::rows::{Pool, fitting, hear_line, row, unfit};
use crate::controller::Controller;
use crate::duty::{Duty, Kind};
use crate::rounds::Word;
use crate::sets::Group;
use crate::yard::{Yard, lines};

/// A random text of so many lines.
pub fn text(rng: &mut Random, goal: usize) -> Vec<u8> {
    let breaking = *rng.pick(&[0, 0, 10, 50, 300]);
    let mut writer = Writer {
        rng,
        goal,
        breaking,
        text: Vec::new(),
        lines: 0,
        yard: Yard::new(),
    };
    while !writer.full() {
        writer.night();
    }
    let mut text = cut(writer.text, goal);
    if rng.chance(250) && text.last() == Some(&b'\n') {
        text.pop();
    }
    text
}

/// The first lines of a text.
fn cut(mut text: Vec<u8>, goal: usize) -> Vec<u8> {
    let length: usize = lines(&text).iter().take(goal).map(|l| l.len() + 1).sum();
    text.truncate(length);
    text
}

/// Writes a text, and follows it with a yard of its own to know what stands.
struct Writer<'a> {
    rng: &'a mut Random,
    goal: usize,
    /// So many lines in a thousand are broken.
    breaking: usize,
    text: Vec<u8>,
    lines: usize,
    yard: Yard,
}

impl Writer<'_> {
    /// Has the text its lines?
    fn full(&self) -> bool {
        self.lines >= self.goal
    }

    /// Writes one line, broken now and then.
    fn put(&mut self, mut line: Vec<u8>) {
        if self.rng.chance(self.breaking) {
            line = break_line(self.rng, line);
        }
        for part in line.split(|&b| b == b'\n') {
            let _ = self.yard.answer(part);
            self.lines += 1;
        }
        self.text.extend_from_slice(&line);
        self.text.push(b'\n');
    }

    /// Writes a line given with blanks for tabs.
    fn say(&mut self, line: String) {
        self.put(line.replace(' ', "\t").into_bytes());
    }

    /// A yard from its draft to its last hearing.
    fn night(&mut self) {
        let strays = if self.lines == 0 { 300 } else { 50 };
        if self.rng.chance(strays) {
            self.strays();
        }
        if self.rng.chance(150) {
            let count = *self.rng.pick(&[0, 17, 18, 99, 99_999]);
            self.say(format!("controllers {count}"));
        }
        let (n, sets) = if self.goal < 20 {
            small_family(self.rng)
        } else {
            family(self.rng)
        };
        self.say(format!("controllers {n}"));
        if self.rng.chance(50) {
            self.strays();
        }
        if self.rng.chance(150) {
            self.say("seal".to_string());
        }
        for set in sets {
            self.set(n, set);
        }
        self.say("seal".to_string());
        if self.yard.sealed().is_none() {
            return self.strays();
        }
        for _ in 0..self.rng.between(1, 4) {
            if self.full() {
                return;
            }
            self.session();
        }
    }

    /// A set for the draft; now and then a wrong one goes before it.
    fn set(&mut self, n: usize, set: Group) {
        if self.rng.chance(60) {
            let mut wrong = set.clone();
            match self.rng.below(6) {
                0 => wrong.clear(),
                1 => wrong.push(n),
                2 => wrong.push(self.rng.between(n, 40)),
                3 => self.rng.shuffle(&mut wrong),
                4 => wrong.push(*self.rng.pick(&[16, 17, 32, 64, 65_536, 99_999])),
                _ => {
                    // A part of an earlier set, or one with more in it.
                    let earlier = self.yard.draft().map(|draft| draft.sets());
                    if let Some(earlier) = earlier.filter(|sets| !sets.is_empty()) {
                        wrong = self.rng.pick(earlier).clone();
                        wrong.push(self.rng.below(n));
                        if self.rng.chance(500) {
                            wrong.remove(0);
                        }
                        wrong.sort();
                        wrong.dedup();
                    }
                }
            }
            self.put(set_line(&wrong));
        }
        self.put(set_line(&set));
    }

    /// Lines that find little to stand on, and lines that are no lines.
    fn strays(&mut self) {
        for _ in 0..self.rng.between(1, 6) {
            let line = match self.rng.below(12) {
                0 => b"seal".to_vec(),
                1 => b"plans\t9\t4".to_vec(),
                2 => b"board\t2\t100\t0/60".to_vec(),
                3 => b"offer\t4".to_vec(),
                4 => b"hear\t4".to_vec(),
                5 => b"set\t0".to_vec(),
                6 => bytes(self.rng),
                7 => {
                    let grants = self.rng.chance(500);
                    long(self.rng, grants)
                }
                8 => Vec::new(),
                _ => soup(self.rng),
            };
            self.put(line);
        }
    }

    /// Opens a controller and lets it hear.
    fn session(&mut self) {
        let duty = self.opening();
        let Some(controller) = self.yard.controller() else {
            return;
        };
        let mut peers = if controller.table().n() <= 6 && self.rng.chance(300) {
            Some(Peers::new(self.rng, controller))
        } else {
            None
        };
        let mut pool = Pool::new(self.rng, &duty);
        for _ in 0..self.rng.between(3, 200) {
            let Some(controller) = self.yard.controller() else {
                return;
            };
            if self.full() {
                return;
            }
            let n = controller.table().n();
            let due = controller.round();
            if due == 1 && self.rng.chance(600) {
                pool = Pool::new(self.rng, controller.duty());
            }
            match self.rng.below(1_000) {
                0..70 => {
                    let value = pool.any(self.rng);
                    self.say(format!("offer {value}"));
                }
                70..80 => {
                    let words = wrong_row(self.rng, controller, &pool);
                    self.put(hear_line(&words));
                }
                80..83 => self.redraft(n),
                83..85 => self.wrong_opening(),
                85..87 => {
                    let grants = controller.duty().kind() == Kind::Board;
                    let line = long(self.rng, grants);
                    self.put(line);
                }
                87..90 => {
                    let line = soup(self.rng);
                    self.put(line);
                }
                _ => {
                    let words = match &peers {
                        Some(peers) => peers.row(self.rng, controller, &pool),
                        None => row(self.rng, controller, &pool),
                    };
                    self.put(hear_line(&words));
                    let now_due = self.yard.controller().map(|c| c.round());
                    if let Some(peers) = &mut peers
                        && now_due != Some(due)
                    {
                        peers.hear(self.rng, &words, &pool);
                    }
                }
            }
        }
    }

    /// A line that opens a controller, and the duty that it asks for.
    fn opening(&mut self) -> Duty {
        let rng = &mut *self.rng;
        if rng.chance(500) {
            let any = rng.between(1, 9_999);
            let highest = *rng.pick(&[1, 2, 9, 9, 300, 9_999, any]);
            let duty = Duty::plans(highest as u32).expect("in range");
            let first = fitting(rng, &duty);
            self.say(format!("plans {highest} {first}"));
            duty
        } else {
            let any = rng.between(1, 64);
            let bays = *rng.pick(&[1, 2, 2, 3, 8, 64, any]);
            let any = rng.between(0, 32_000);
            let feed = *rng.pick(&[0, 1, 100, 100, 1_000, 2_500, 32_000, any]);
            let duty = Duty::board(bays as u32, feed as u32).expect("in range");
            let first = fitting(rng, &duty);
            self.say(format!("board {bays} {feed} {first}"));
            duty
        }
    }

    /// An opening that is refused.
    fn wrong_opening(&mut self) {
        let rng = &mut *self.rng;
        let plans = Duty::plans(9).expect("in range");
        let board = Duty::board(2, 100).expect("in range");
        let wrong = match rng.below(4) {
            0 => {
                let highest = *rng.pick(&[0, 10_000, 65_535, 65_537, 99_999]);
                let first = *rng.pick(&[0, 1, 9_999, 10_000]);
                format!("plans {highest} {first}")
            }
            1 => {
                let settings = [(0, 0), (65, 0), (64, 32_001), (256, 5), (1, 99_999)];
                let (bays, feed) = *rng.pick(&settings);
                let first = *rng.pick(&["0/0", "64/0", "0/1001"]);
                format!("board {bays} {feed} {first}")
            }
            2 => format!("plans 9 {}", unfit(rng, &plans)),
            _ => format!("board 2 100 {}", unfit(rng, &board)),
        };
        self.say(wrong);
    }

    /// More sets and a further sealing while a controller stands.
    fn redraft(&mut self, n: usize) {
        for _ in 0..self.rng.below(3) {
            let set: Group = (0..n).filter(|_| self.rng.chance(700)).collect();
            self.set(n, set);
        }
        self.say("seal".to_string());
    }
}

/// A row of a wrong length.
fn wrong_row(rng: &mut Random, controller: &Controller, pool: &Pool) -> Vec<Word> {
    let mut words = row(rng, controller, pool);
    match rng.below(4) {
        0 => words.clear(),
        1 => words.extend(words.clone()),
        2 => words.push(None),
        _ => {
            words.pop();
        }
    }
    words
}

/// The line of a set.
pub fn set_line(set: &[usize]) -> Vec<u8> {
    let mut line = String::from("set");
    for member in set {
        line.push('\t');
        line.push_str(&member.to_string());
    }
    line.into_bytes()
}
