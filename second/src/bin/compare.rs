//! Compares another yard program with the second implementation on random
//! texts, answer by answer: `compare YARD SEED COUNT`.

use second::trial::nights;
use second::trial::random::Random;
use second::trial::shrink::{Difference, compare, shrink};
use second::trial::table::Table;
use second::yard::{MOST_LINES, lines};
use std::process::ExitCode;

/// Of a long run, every kind of answer must come so many times.
const MANY: u64 = 100;

/// Where the text of a difference is kept.
const KEPT: &str = concat!(env!("CARGO_MANIFEST_DIR"), "/target/difference.txt");

/// How many lines of a text or of its answers are shown.
const SHOWN: usize = 100;

fn main() -> ExitCode {
    let arguments: Vec<String> = std::env::args().collect();
    let numbers = match arguments.as_slice() {
        [_, _, seed, count] => (seed.parse().ok(), count.parse().ok()),
        _ => (None, None),
    };
    let (Some(seed), Some(count)) = numbers else {
        eprintln!("usage: compare YARD SEED COUNT");
        return ExitCode::from(2);
    };
    match trial(&arguments[1], seed, count) {
        Ok(code) => code,
        Err(error) => {
            eprintln!("{}: {error}", arguments[1]);
            ExitCode::from(2)
        }
    }
}

/// Compares on texts of `count` lines in all.
fn trial(path: &str, seed: u64, count: usize) -> std::io::Result<ExitCode> {
    let mut rng = Random::new(seed);
    let mut table = Table::default();
    let mut done = 0;
    let mut texts = 0;
    while done < count {
        // One text of a long run goes past the end of what a run may have.
        let goal = if texts == 0 && count > 3 * MOST_LINES {
            MOST_LINES + 5
        } else {
            length(&mut rng).min(count - done)
        };
        let text = nights::text(&mut rng, goal);
        match compare(path, &text)? {
            Ok(answers) => table.count(&answers),
            Err(difference) => {
                println!("a difference in text {}, seed {seed}; shrinking", texts + 1);
                let short = shrink(path, &text, &difference)?;
                match compare(path, &short)? {
                    Err(difference) => show(&short, &difference)?,
                    Ok(_) => show(&text, &difference)?,
                }
                return Ok(ExitCode::FAILURE);
            }
        }
        done += lines(&text).len();
        texts += 1;
    }
    print!("{table}");
    println!("{done} lines in {texts} texts, seed {seed}: no difference");
    let scarce = table.scarce(MANY);
    if count >= MOST_LINES && !scarce.is_empty() {
        println!("too few answers of these kinds: {}", scarce.join(", "));
        return Ok(ExitCode::from(2));
    }
    Ok(ExitCode::SUCCESS)
}

/// How long the next text is: a few lines, hundreds or thousands.
fn length(rng: &mut Random) -> usize {
    match rng.below(100) {
        0..20 => rng.between(1, 19),
        20..50 => rng.between(20, 999),
        _ => rng.between(1_000, 9_999),
    }
}

/// Shows a text and what both made of it, and keeps the text in a file.
fn show(text: &[u8], difference: &Difference) -> std::io::Result<()> {
    std::fs::write(KEPT, text)?;
    println!("the text, {} bytes, kept in {KEPT}:", text.len());
    show_lines(text, 0);
    let second = lines(&difference.second);
    let program = lines(&difference.program.out);
    let pairs = program.iter().zip(&second);
    let agreed = pairs.take_while(|(one, other)| one == other).count();
    println!("the program, from answer {}:", agreed + 1);
    show_lines(&difference.program.out, agreed);
    if let Some(trouble) = &difference.program.trouble {
        println!("  and its end: {trouble}");
    }
    println!("the second, from answer {}:", agreed + 1);
    show_lines(&difference.second, agreed);
    Ok(())
}

/// Shows lines with their line feeds, every unusual byte escaped.
fn show_lines(bytes: &[u8], from: usize) {
    let all: Vec<&[u8]> = bytes.split_inclusive(|&b| b == b'\n').skip(from).collect();
    for line in all.iter().take(SHOWN) {
        println!("  {}", line.escape_ascii());
    }
    if all.len() > SHOWN {
        println!("  and {} lines more", all.len() - SHOWN);
    }
}
