//! Running another program on a text through pipes.

use std::io::{self, Read, Write};
use std::process::{Command, Stdio};
use std::sync::mpsc;
use std::thread;
use std::time::Duration;

/// How long a program may take for a text: 10 seconds, and one more for each
/// 20,000 lines.
fn patience(text: &[u8]) -> Duration {
    let lines = text.iter().filter(|&&b| b == b'\n').count() as u64;
    Duration::from_secs(10 + lines / 20_000)
}

/// What a program did with a text.
#[derive(Clone, Debug, PartialEq, Eq)]
pub struct Ran {
    /// The bytes it wrote.
    pub out: Vec<u8>,
    /// How it ended, if not well.
    pub trouble: Option<String>,
}

/// Runs the program on the text. It may stop reading before the end. Output
/// is read up to `most` bytes.
pub fn run_program(path: &str, text: &[u8], most: usize) -> io::Result<Ran> {
    let mut child = Command::new(path)
        .stdin(Stdio::piped())
        .stdout(Stdio::piped())
        .stderr(Stdio::null())
        .spawn()?;
    let mut input = child.stdin.take().expect("input is a pipe");
    let output = child.stdout.take().expect("output is a pipe");
    let (tell, told) = mpsc::channel();
    thread::scope(|scope| {
        // A program that ends early leaves bytes unread; that is no fault.
        scope.spawn(move || {
            let _ = input.write_all(text);
        });
        scope.spawn(move || {
            let mut out = Vec::new();
            let read = output.take(most as u64).read_to_end(&mut out);
            let _ = tell.send(read.map(|_| out));
        });
        let mut late = false;
        let out = match told.recv_timeout(patience(text)) {
            Ok(out) => out?,
            Err(_) => {
                late = true;
                child.kill()?;
                Vec::new()
            }
        };
        let status = child.wait()?;
        let trouble = if late {
            Some("not done in time; ended".to_string())
        } else if !status.success() {
            Some(status.to_string())
        } else {
            None
        };
        Ok(Ran { out, trouble })
    })
}
