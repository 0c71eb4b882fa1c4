//! A program that is started for each input and reads it on standard input.

use crate::feed::feed;
use crate::subject::{end_by, most, no_end, Right, Subject, Told};
use std::io::{self, Read};
use std::process::{ChildStdout, Command, Stdio};
use std::sync::atomic::{AtomicUsize, Ordering};
use std::sync::mpsc::{channel, Receiver};
use std::thread;
use std::time::{Duration, Instant};

/// So many programs run at once.
const AT_ONCE: usize = 2;

#[derive(Clone)]
pub struct Once {
    pub program: Vec<String>,
    pub right: Right,
    pub limit: Duration,
    /// The size of the pieces that standard input comes in.
    pub piece: Option<usize>,
}

impl Subject for Once {
    fn printed(&mut self, input: &[u8], expected: usize) -> io::Result<Told> {
        let deadline = Instant::now() + self.limit;
        let mut child = Command::new(&self.program[0])
            .args(&self.program[1..])
            .stdin(Stdio::piped())
            .stdout(Stdio::piped())
            .spawn()?;
        let pipe = child.stdin.take().expect("standard input is piped");
        let output = child.stdout.take().expect("standard output is piped");
        let (input, piece, reader) = (input.to_vec(), self.piece, child.id());
        thread::spawn(move || feed(pipe, &input, piece, reader));
        let printed = read_aside(output, most(expected)).recv_timeout(self.limit);
        if printed.is_err() {
            child.kill()?;
        }
        let status = end_by(&mut child, deadline)?;
        Ok(match (printed, status) {
            (Ok(printed), Some(status)) if status.success() => Ok(printed),
            (Ok(_), Some(status)) => Err(format!("ended with {status}")),
            _ => Err(no_end(self.limit)),
        })
    }

    fn right(&self, input: &[u8]) -> Vec<u8> {
        (self.right)(input)
    }

    fn first_difference(&mut self, inputs: &[Vec<u8>]) -> io::Result<Option<usize>> {
        let next = AtomicUsize::new(0);
        let first = AtomicUsize::new(inputs.len());
        thread::scope(|scope| {
            let start = |_| scope.spawn(|| self.clone().take_turns(inputs, &next, &first));
            let workers: Vec<_> = (0..AT_ONCE.min(inputs.len())).map(start).collect();
            workers.into_iter().try_for_each(|worker| worker.join().expect("no worker panics"))
        })?;
        let first = first.into_inner();
        Ok((first < inputs.len()).then_some(first))
    }
}

impl Once {
    /// Tries the next input until all before the first difference are taken.
    fn take_turns(
        &mut self,
        inputs: &[Vec<u8>],
        next: &AtomicUsize,
        first: &AtomicUsize,
    ) -> io::Result<()> {
        loop {
            let place = next.fetch_add(1, Ordering::SeqCst);
            if place >= first.load(Ordering::SeqCst) {
                return Ok(());
            }
            if !self.agrees(&inputs[place])? {
                first.fetch_min(place, Ordering::SeqCst);
            }
        }
    }
}

/// Reads up to so many bytes in a thread, which a program that never closes
/// its output keeps, and nobody else.
fn read_aside(output: ChildStdout, most: usize) -> Receiver<Vec<u8>> {
    let (sender, receiver) = channel();
    thread::spawn(move || {
        let mut bytes = Vec::new();
        let _ = output.take(most as u64).read_to_end(&mut bytes);
        let _ = sender.send(bytes);
    });
    receiver
}
