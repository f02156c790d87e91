//! The kept scripts and traces, byte for byte.

use std::fs;
use std::io::{self, Read, Write};
use std::path::{Path, PathBuf};
use std::process::{Command, Stdio};

use model::script;
use model::trace;

fn testdata() -> PathBuf {
    Path::new(env!("CARGO_MANIFEST_DIR")).join("testdata")
}

fn names(extension: &str) -> Vec<PathBuf> {
    let entries = fs::read_dir(testdata()).unwrap();
    let mut names: Vec<PathBuf> = entries.map(|entry| entry.unwrap().path()).collect();
    names.retain(|path| path.extension().is_some_and(|e| e == extension));
    names.sort();
    names
}

fn wanted(script: &Path) -> Vec<u8> {
    fs::read(script.with_extension("out")).unwrap()
}

/// Hands over one byte at a time.
struct Slow<'a>(&'a [u8]);

impl Read for Slow<'_> {
    fn read(&mut self, buffer: &mut [u8]) -> io::Result<usize> {
        let one = buffer.len().min(1);
        self.0.read(&mut buffer[..one])
    }
}

#[test]
fn scripts_give_their_outputs() {
    let scripts = names("script");
    assert_eq!(scripts.len(), 56);
    for path in scripts {
        let output = script::output_of(&fs::read(&path).unwrap());
        assert!(output == wanted(&path), "{}", path.display());
    }
}

#[test]
fn scripts_read_byte_by_byte_give_the_same() {
    for path in names("script") {
        let mut output = Vec::new();
        script::run(Slow(&fs::read(&path).unwrap()), &mut output).unwrap();
        assert!(output == wanted(&path), "{}", path.display());
    }
}

fn replay(input: &[u8]) -> Vec<u8> {
    let mut child = Command::new(env!("CARGO_BIN_EXE_replay"))
        .stdin(Stdio::piped())
        .stdout(Stdio::piped())
        .spawn()
        .unwrap();
    let mut stdin = child.stdin.take().unwrap();
    // A script refused at its first line is not read to its end.
    let _ = stdin.write_all(input);
    drop(stdin);
    let done = child.wait_with_output().unwrap();
    assert!(done.status.success());
    done.stdout
}

#[test]
fn the_program_replays_scripts() {
    for path in names("script") {
        let output = replay(&fs::read(&path).unwrap());
        assert!(output == wanted(&path), "{}", path.display());
    }
}

#[test]
fn the_program_takes_a_line_of_any_length() {
    let mut input = b"N 3\nS 0 ".to_vec();
    input.resize(5_000_000, b'7');
    input.extend_from_slice(b"\nR 0\nS 1 2");
    assert_eq!(replay(&input), b"TRC 1 3\nX 2 2\nX 4 2\n");
}

#[test]
fn traces_give_their_answers() {
    let answers = fs::read_to_string(testdata().join("answers.txt")).unwrap();
    assert_eq!(answers.lines().count(), names("trace").len());
    for line in answers.lines() {
        let (name, answer) = line.split_once(' ').unwrap();
        let text = fs::read_to_string(testdata().join(format!("{name}.trace"))).unwrap();
        let (n, records) = trace::parse(&text).unwrap();
        assert_eq!(trace::check(n, &records).to_string(), answer, "{name}");
    }
}

/// The outputs of good scripts are traces; those within the limit are accepted.
#[test]
fn outputs_are_accepted_as_traces() {
    let mut read = 0;
    for path in names("out") {
        let text = fs::read_to_string(&path).unwrap();
        if let Some((n, records)) = trace::parse(&text) {
            let verdict = match records.len() <= trace::MOST {
                true => trace::Verdict::Yes,
                false => trace::Verdict::Refused,
            };
            assert_eq!(trace::check(n, &records), verdict, "{}", path.display());
            read += 1;
        }
    }
    assert!(read >= 40);
}
