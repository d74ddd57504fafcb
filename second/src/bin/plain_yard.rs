//! The second yard program: standard input to standard output.

use second::yard::Yard;
use std::io::{self, BufRead, Write};

fn main() -> io::Result<()> {
    let mut input = io::stdin().lock();
    let mut output = io::BufWriter::new(io::stdout().lock());
    let mut yard = Yard::new();
    let mut line = Vec::new();
    let mut answer = Vec::new();
    while !yard.ended() {
        line.clear();
        if input.read_until(b'\n', &mut line)? == 0 {
            break;
        }
        if line.last() == Some(&b'\n') {
            line.pop();
        }
        answer.clear();
        yard.line(&line, &mut answer);
        output.write_all(&answer)?;
    }
    output.flush()
}
