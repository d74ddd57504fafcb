//! Prints a text for measuring speed: `night_text N KIND LINES SEED`, KIND
//! being `plans`, `board` or `drafts`.

use second::duty::Duty;
use second::sets::{Group, MOST_SETS};
use second::trial::families::{bearable, groups_of_size};
use second::trial::nights::set_line;
use second::trial::random::Random;
use second::trial::rows::{Pool, fitting, hear_line};
use second::yard::Yard;
use std::io::{self, BufWriter, Write};
use std::process::ExitCode;

fn main() -> ExitCode {
    let arguments: Vec<String> = std::env::args().skip(1).collect();
    let number = |place: usize| arguments.get(place).and_then(|a| a.parse::<usize>().ok());
    let kind = arguments.get(1).map_or("", |kind| kind.as_str());
    let (Some(n @ 1..=16), "plans" | "board" | "drafts", Some(lines), Some(seed), 4) =
        (number(0), kind, number(2), number(3), arguments.len())
    else {
        eprintln!("usage: night_text N KIND LINES SEED, KIND being plans, board or drafts");
        return ExitCode::from(2);
    };
    let mut writer = Writer {
        rng: Random::new(seed as u64),
        out: BufWriter::new(io::stdout().lock()),
        yard: Yard::new(),
        left: lines,
    };
    let written = match kind {
        "drafts" => writer.drafts(n),
        _ => writer.hearings(n, kind == "board"),
    };
    match written {
        Ok(()) => ExitCode::SUCCESS,
        Err(error) => {
            eprintln!("{error}");
            ExitCode::FAILURE
        }
    }
}

/// Writes lines until the text has as many as it should.
struct Writer<'a> {
    rng: Random,
    out: BufWriter<io::StdoutLock<'a>>,
    yard: Yard,
    left: usize,
}

impl Writer<'_> {
    fn put(&mut self, line: &[u8]) -> io::Result<()> {
        if self.left > 0 {
            self.left -= 1;
            self.out.write_all(line)?;
            self.out.write_all(b"\n")?;
        }
        Ok(())
    }

    /// Up to 64 sets of as many controllers as stay when as many fail as the
    /// yard can bear. Any three of them share a controller.
    fn sets(&mut self, n: usize) -> Vec<Group> {
        groups_of_size(&mut self.rng, n, n - bearable(n), MOST_SETS)
    }

    /// A draft and its sealing.
    fn draft(&mut self, n: usize) -> io::Result<()> {
        let mut lines = vec![format!("controllers\t{n}").into_bytes()];
        lines.extend(self.sets(n).iter().map(|set| set_line(set)));
        lines.push(b"seal".to_vec());
        for line in lines {
            let _ = self.yard.answer(&line);
            self.put(&line)?;
        }
        Ok(())
    }

    /// Drafts and sealings all along.
    fn drafts(&mut self, n: usize) -> io::Result<()> {
        while self.left > 0 {
            self.draft(n)?;
        }
        self.out.flush()
    }

    /// One yard, and hearings from then on with an offer now and then.
    fn hearings(&mut self, n: usize, board: bool) -> io::Result<()> {
        self.draft(n)?;
        let opened = if board {
            Duty::board(64, 32_000)
        } else {
            Duty::plans(9_999)
        };
        let duty = opened.expect("in range");
        let first = fitting(&mut self.rng, &duty);
        let opening = if board {
            format!("board\t64\t32000\t{first}")
        } else {
            format!("plans\t9999\t{first}")
        };
        let _ = self.yard.answer(opening.as_bytes());
        self.put(opening.as_bytes())?;
        let mut pool = Pool::new(&mut self.rng, &duty);
        while self.left > 0 {
            if self.rng.chance(20) {
                pool = Pool::new(&mut self.rng, &duty);
                let line = format!("offer\t{}", pool.value(&mut self.rng)).into_bytes();
                let _ = self.yard.answer(&line);
                self.put(&line)?;
            }
            let line = self.row(n, &pool);
            let _ = self.yard.answer(&line);
            self.put(&line)?;
        }
        self.out.flush()
    }

    /// A row in which nearly all speak alike, mostly what the listener itself
    /// would speak; a few lie.
    fn row(&mut self, n: usize, pool: &Pool) -> Vec<u8> {
        let own = self.yard.controller().and_then(|c| c.speak());
        let other = pool.value(&mut self.rng);
        let most = if self.rng.chance(800) {
            own
        } else {
            Some(other)
        };
        let mut row = vec![most; n];
        for word in &mut row {
            if self.rng.chance(60) {
                *word = pool.lie(&mut self.rng);
            }
        }
        hear_line(&row)
    }
}
