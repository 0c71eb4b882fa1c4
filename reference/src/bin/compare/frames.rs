//! A program that takes many inputs, one frame each, and answers each with a
//! frame.

use crate::subject::{end_by, no_end, Right, Subject, Told};
use cards_reference::frame::{read_frame, write_frame};
use std::io::{self, BufReader, BufWriter, Read, Write};
use std::process::{Child, ChildStdin, ChildStdout, Command, Stdio};
use std::sync::mpsc::{channel, Receiver, RecvTimeoutError, Sender};
use std::thread;
use std::time::{Duration, Instant};

/// How long a program may take to end after its input has ended.
const TO_END: Duration = Duration::from_secs(5);

pub struct Frames {
    program: Vec<String>,
    right: Right,
    limit: Duration,
    running: Option<Running>,
}

/// A started program and the threads that write and read its frames.
struct Running {
    child: Child,
    inputs: Sender<Vec<u8>>,
    answers: Receiver<Vec<u8>>,
}

impl Subject for Frames {
    fn printed(&mut self, input: &[u8], _expected: usize) -> io::Result<Told> {
        let running = self.running()?;
        // A failed send shows as a missing answer.
        let _ = running.inputs.send(input.to_vec());
        Ok(match running.answers.recv_timeout(self.limit) {
            Ok(answer) => {
                self.running = Some(running);
                Ok(answer)
            }
            Err(RecvTimeoutError::Timeout) => {
                end(running, Duration::ZERO)?;
                Err(no_end(self.limit))
            }
            Err(RecvTimeoutError::Disconnected) => Err(end(running, TO_END)?.1),
        })
    }

    fn right(&self, input: &[u8]) -> Vec<u8> {
        (self.right)(input)
    }

    /// All inputs are sent before the first answer is awaited, so that the
    /// program and the reference work side by side. Without an answer it is not
    /// known which input is at fault; the rest are then given one by one.
    fn first_difference(&mut self, inputs: &[Vec<u8>]) -> io::Result<Option<usize>> {
        let together = if inputs.len() > 1 { self.together(inputs)? } else { Err(0) };
        match together {
            Ok(first) => Ok(first),
            Err(agreed) => self.one_by_one(inputs, agreed),
        }
    }

    fn finish(&mut self) -> io::Result<Result<(), String>> {
        let Some(running) = self.running.take() else {
            return Ok(Ok(()));
        };
        let (good, how) = end(running, TO_END)?;
        Ok(if good { Ok(()) } else { Err(how) })
    }
}

impl Frames {
    pub fn new(program: Vec<String>, right: Right, limit: Duration) -> Frames {
        Frames { program, right, limit, running: None }
    }

    fn running(&mut self) -> io::Result<Running> {
        match self.running.take() {
            Some(running) => Ok(running),
            None => start(&self.program),
        }
    }

    /// The place of the first input on which the program does not agree; or,
    /// if an answer fails to come, the number of those on which it does.
    fn together(&mut self, inputs: &[Vec<u8>]) -> io::Result<Result<Option<usize>, usize>> {
        let running = self.running()?;
        for input in inputs {
            let _ = running.inputs.send(input.clone());
        }
        for (place, input) in inputs.iter().enumerate() {
            let expected = self.right(input);
            let answer = running.answers.recv_timeout(self.limit);
            if answer.as_ref() != Ok(&expected) {
                end(running, Duration::ZERO)?;
                return Ok(if answer.is_ok() { Ok(Some(place)) } else { Err(place) });
            }
        }
        self.running = Some(running);
        Ok(Ok(None))
    }

    fn one_by_one(&mut self, inputs: &[Vec<u8>], from: usize) -> io::Result<Option<usize>> {
        for (place, input) in inputs.iter().enumerate().skip(from) {
            if !self.agrees(input)? {
                return Ok(Some(place));
            }
        }
        Ok(None)
    }
}

impl Drop for Frames {
    fn drop(&mut self) {
        let _ = self.finish();
    }
}

fn start(program: &[String]) -> io::Result<Running> {
    let mut child = Command::new(&program[0])
        .args(&program[1..])
        .stdin(Stdio::piped())
        .stdout(Stdio::piped())
        .stderr(Stdio::piped())
        .spawn()?;
    let (inputs, to_write) = channel();
    let (read, answers) = channel();
    let input = child.stdin.take().expect("standard input is piped");
    let output = child.stdout.take().expect("standard output is piped");
    thread::spawn(move || write_frames(input, &to_write));
    thread::spawn(move || read_frames(output, &read));
    Ok(Running { child, inputs, answers })
}

/// Closes the program's input and gives it so long to end. Whether it ended
/// well; how, with the last line that it wrote to standard error.
fn end(running: Running, patience: Duration) -> io::Result<(bool, String)> {
    let Running { mut child, inputs, .. } = running;
    drop(inputs);
    let errors = child.stderr.take();
    let Some(status) = end_by(&mut child, Instant::now() + patience)? else {
        return Ok((false, "no end after the end of its input".to_string()));
    };
    let mut said = String::new();
    if let Some(mut errors) = errors {
        let _ = errors.read_to_string(&mut said);
    }
    let said = said.lines().last().unwrap_or("no word why");
    Ok((status.success(), format!("ended with {status}: {said}")))
}

fn write_frames(pipe: ChildStdin, inputs: &Receiver<Vec<u8>>) -> io::Result<()> {
    let mut pipe = BufWriter::new(pipe);
    for input in inputs {
        write_frame(&mut pipe, &input)?;
        for input in inputs.try_iter() {
            write_frame(&mut pipe, &input)?;
        }
        pipe.flush()?;
    }
    Ok(())
}

fn read_frames(output: ChildStdout, answers: &Sender<Vec<u8>>) -> io::Result<()> {
    let mut output = BufReader::new(output);
    while let Some(answer) = read_frame(&mut output)? {
        if answers.send(answer).is_err() {
            return Ok(());
        }
    }
    Ok(())
}
