//! A program that is asked as a process: input through a pipe, whole or in pieces, and its whole
//! standard output.

mod limit;

use std::io::{ErrorKind, Read, Write};
use std::path::Path;
use std::process::{Child, ChildStdin, Command, ExitStatus, Stdio};
use std::sync::mpsc;
use std::thread;
use std::time::Duration;

/// How long a program may take for one input, also if it only waits.
const TIME: Duration = Duration::from_secs(60);

/// How long the writer waits between two pieces, so that the program reads them one by one.
const PAUSE: Duration = Duration::from_millis(2);

/// More than any right output has.
const MOST_OUTPUT: u64 = 1 << 20;

/// The standard output of the program on this input, which is cut at these places. An error is
/// what else happened.
pub fn ask(program: &Path, input: &[u8], cuts: &[usize]) -> Result<String, String> {
    let mut child = Command::new(program)
        .stdin(Stdio::piped())
        .stdout(Stdio::piped())
        .stderr(Stdio::null())
        .spawn()
        .map_err(|error| format!("{} does not start: {error}", program.display()))?;
    limit::set(&child);
    let stdin = child.stdin.take().expect("piped");
    let mut stdout = child.stdout.take().expect("piped");
    let (sender, receiver) = mpsc::channel();
    thread::scope(|scope| {
        scope.spawn(move || {
            let mut output = Vec::new();
            let read = stdout.by_ref().take(MOST_OUTPUT).read_to_end(&mut output);
            // Nobody hears it after the time is over.
            let _ = sender.send(read.map(|_| output));
        });
        let written = scope.spawn(move || write(stdin, input, cuts));
        let output = receiver.recv_timeout(TIME);
        if output.is_err() {
            let _ = child.kill();
        }
        let status = end(child);
        let written = written.join().expect("the writer does not panic");
        let output = output.map_err(|_| format!("no end within {} s", TIME.as_secs()))?;
        written.map_err(|error| format!("writing to it: {error}"))?;
        let output = output.map_err(|error| format!("reading from it: {error}"))?;
        ended_by_itself(status?)?;
        String::from_utf8(output).map_err(|_| "its output is no text".into())
    })
}

fn write(mut stdin: ChildStdin, mut input: &[u8], cuts: &[usize]) -> std::io::Result<()> {
    let mut written = 0;
    for &cut in cuts {
        let (piece, rest) = input.split_at((cut - written).min(input.len()));
        written += piece.len();
        input = rest;
        unless_closed(stdin.write_all(piece))?;
        thread::sleep(PAUSE);
    }
    unless_closed(stdin.write_all(input))
}

/// A program may leave input unread that it refuses.
fn unless_closed(result: std::io::Result<()>) -> std::io::Result<()> {
    match result {
        Err(error) if error.kind() == ErrorKind::BrokenPipe => Ok(()),
        result => result,
    }
}

fn end(mut child: Child) -> Result<ExitStatus, String> {
    child.wait().map_err(|error| error.to_string())
}

/// Document 01 says nothing of exit statuses; only a signal is wrong.
fn ended_by_itself(status: ExitStatus) -> Result<(), String> {
    match status.code() {
        Some(_) => Ok(()),
        None if limit::is_over(status) => {
            let seconds = limit::SECONDS;
            Err(format!("no end within {seconds} s of computing"))
        }
        None => Err(format!("it was ended: {status}")),
    }
}
