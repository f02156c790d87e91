//! The program that runs a script.

use std::io::{self, BufRead, BufReader, Read, Write};

use crate::cluster::{Cluster, Event};
use crate::server::Refusal;
use crate::trace::Record;

pub const ROOM: u64 = 16;
pub const DEPTH: u64 = 4;

/// No good line is longer: a letter, two numbers of 20 digits, two spaces.
const LONGEST: usize = 43;

/// One line, cut at one byte more than the longest good one.
struct Line {
    text: Vec<u8>,
    /// A newline ended it.
    ended: bool,
}

impl Line {
    fn good(&self) -> Option<&[u8]> {
        (self.ended && self.text.len() <= LONGEST).then_some(&self.text)
    }
}

/// The next line, read in parts; none at the end of the script. Text after the
/// last newline is a line that has not ended.
fn next_line(input: &mut impl BufRead) -> io::Result<Option<Line>> {
    let mut line = Line {
        text: Vec::new(),
        ended: false,
    };
    let mut any = false;
    loop {
        let part = input.fill_buf()?;
        if part.is_empty() {
            return Ok(any.then_some(line));
        }
        any = true;
        let end = part.iter().position(|byte| *byte == b'\n');
        let text = &part[..end.unwrap_or(part.len())];
        let kept = text.len().min(LONGEST + 1 - line.text.len());
        line.text.extend_from_slice(&text[..kept]);
        let used = text.len() + usize::from(end.is_some());
        input.consume(used);
        if end.is_some() {
            line.ended = true;
            return Ok(Some(line));
        }
    }
}

#[derive(Clone, Copy, Debug, PartialEq, Eq)]
pub enum Command {
    /// N n
    Servers(u64),
    Event(Event),
}

/// The command of a line, none if the line is bad.
pub fn parse(line: &[u8]) -> Option<Command> {
    let words: Vec<&[u8]> = line.split(|byte| *byte == b' ').collect();
    let (letter, numbers) = words.split_first()?;
    let numbers: Option<Vec<u64>> = numbers.iter().map(|word| number(word)).collect();
    match (*letter, numbers?.as_slice()) {
        (b"N", &[n]) => Some(Command::Servers(n)),
        (b"O", &[s, x]) => Some(Command::Event(Event::Oracle { s, x })),
        (b"R", &[s]) => Some(Command::Event(Event::Restart { s })),
        (b"D", &[from, to]) => Some(Command::Event(Event::Deliver { from, to })),
        (b"S", &[s, v]) => Some(Command::Event(Event::Submit { s, v })),
        _ => None,
    }
}

/// A decimal number of at most 64 bits without leading zeros.
fn number(word: &[u8]) -> Option<u64> {
    let led = word.len() > 1 && word[0] == b'0';
    if word.is_empty() || led {
        return None;
    }
    word.iter().try_fold(0u64, |sum, byte| {
        let digit = byte.is_ascii_digit().then(|| u64::from(byte - b'0'))?;
        sum.checked_mul(10)?.checked_add(digit)
    })
}

/// The cluster that the first line asks for.
fn opened(line: Option<&Line>) -> Option<Cluster> {
    match parse(line?.good()?)? {
        Command::Servers(n) => Cluster::new(n, ROOM, DEPTH),
        Command::Event(_) => None,
    }
}

/// One line after the first: its records, or its refusal.
fn run_line(cluster: &mut Cluster, line: &Line) -> Result<Vec<Record>, Refusal> {
    match line.good().and_then(parse) {
        Some(Command::Event(event)) => cluster.apply(event),
        _ => Err(Refusal::Event),
    }
}

/// Runs a script of any length, with lines of any length.
pub fn run(input: impl Read, mut output: impl Write) -> io::Result<()> {
    let mut input = BufReader::new(input);
    let first = next_line(&mut input)?;
    let Some(mut cluster) = opened(first.as_ref()) else {
        writeln!(output, "X 1 1")?;
        return output.flush();
    };
    writeln!(output, "TRC 1 {}", cluster.sizes().n())?;
    let mut count: u64 = 1;
    while let Some(line) = next_line(&mut input)? {
        count += 1;
        write_line(&mut output, count, run_line(&mut cluster, &line))?;
    }
    output.flush()
}

fn write_line(
    output: &mut impl Write,
    line: u64,
    answer: Result<Vec<Record>, Refusal>,
) -> io::Result<()> {
    let refused = |refusal: Refusal| Record::X {
        line,
        refusal: u64::from(refusal.number()),
    };
    for record in answer.unwrap_or_else(|refusal| vec![refused(refusal)]) {
        writeln!(output, "{record}")?;
    }
    Ok(())
}

/// The whole output of a script.
pub fn output_of(script: &[u8]) -> Vec<u8> {
    let mut output = Vec::new();
    run(script, &mut output).expect("memory takes every byte");
    output
}
