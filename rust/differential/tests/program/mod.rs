//! A program, run on an input that is written in one piece or several, and closed or left open.

use std::io::{Read, Write};
use std::path::Path;
use std::process::{Child, ChildStdin, Command, ExitStatus, Stdio};
use std::thread;
use std::time::{Duration, Instant};

/// A program that has not ended after so long never will.
const MOST: Duration = Duration::from_secs(30);
/// Between two pieces of an input.
const PAUSE: Duration = Duration::from_millis(2);

/// A program of the repository, by its crate's name.
#[derive(Clone, Copy)]
pub struct Program(pub &'static str);

impl Program {
    fn start(self) -> Child {
        let bin = Path::new(env!("CARGO_MANIFEST_DIR")).join("../../target/bin");
        let program = bin.join(self.0);
        Command::new(&program)
            .stdin(Stdio::piped())
            .stdout(Stdio::piped())
            .spawn()
            .unwrap_or_else(|error| panic!("{} does not start: {error}", program.display()))
    }

    /// All that the program prints for an input that comes in pieces, cut at these rising places, and then stays open
    /// or is closed.
    fn play(self, input: &[u8], places: &[usize], pause: Duration, stays_open: bool) -> String {
        let mut child = self.start();
        let mut pipe = child.stdin.take().expect("a piped input");
        let mut out = child.stdout.take().expect("a piped output");
        let mut text = String::new();
        let status = thread::scope(|scope| {
            let writer = scope.spawn(move || {
                write(&mut pipe, input, places, pause);
                stays_open.then_some(pipe)
            });
            scope.spawn(|| out.read_to_string(&mut text).expect("text"));
            let status = end(&mut child);
            drop(writer.join());
            status
        });
        let status = status.expect("the program does not end");
        assert!(status.success(), "the program ended with {status}");
        text
    }

    pub fn run(self, input: &[u8]) -> String {
        self.play(input, &[], Duration::ZERO, false)
    }

    pub fn run_slowly(self, input: &[u8], places: &[usize]) -> String {
        self.play(input, places, PAUSE, false)
    }

    pub fn run_open(self, input: &[u8]) -> String {
        self.play(input, &[], Duration::ZERO, true)
    }
}

/// Writes the input cut at these places, with a pause after each piece. The program may end before it has read all.
fn write(pipe: &mut ChildStdin, input: &[u8], places: &[usize], pause: Duration) {
    let mut start = 0;
    for &end in places.iter().chain(&[input.len()]) {
        if pipe.write_all(&input[start..end]).is_err() {
            return;
        }
        start = end;
        if !pause.is_zero() {
            thread::sleep(pause);
        }
    }
}

/// Waits for the program's end; one that takes too long is stopped.
fn end(child: &mut Child) -> Option<ExitStatus> {
    let start = Instant::now();
    while start.elapsed() < MOST {
        if let Some(status) = child.try_wait().expect("its state") {
            return Some(status);
        }
        thread::sleep(Duration::from_millis(1));
    }
    child.kill().expect("its end");
    child.wait().expect("its end");
    None
}
