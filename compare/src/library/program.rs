//! Calls by the program `replay`: stored answers go in, what differs comes out.

use super::Verdict;
use crate::generate::Case;
use crate::oracle::Reply;
use crate::stored;
use std::io::{BufWriter, Write};
use std::process::{Child, ChildStdin, Command, Stdio};

const RUN: &str = concat!(env!("CARGO_MANIFEST_DIR"), "/../run");

pub struct Library {
    program: Child,
    input: BufWriter<ChildStdin>,
}

impl Library {
    pub fn start() -> Result<Self, String> {
        let piped =
            Command::new(RUN).arg("replay").stdin(Stdio::piped()).stdout(Stdio::piped()).spawn();
        let mut program = piped.map_err(|error| format!("{RUN}: {error}"))?;
        let input = program.stdin.take().ok_or("replay takes no input")?;
        Ok(Library { program, input: BufWriter::new(input) })
    }

    pub fn call(&mut self, case: &Case, reply: &Reply) -> Result<(), String> {
        let record = stored::write(case, reply);
        self.input.write_all(&record).map_err(|error| format!("replay: {error}"))
    }

    pub fn end(self) -> Result<Verdict, String> {
        let input = self.input.into_inner().map_err(|error| format!("replay: {error}"))?;
        drop(input);
        let output = self.program.wait_with_output();
        let output = output.map_err(|error| format!("replay: {error}"))?;
        let text = String::from_utf8_lossy(&output.stdout);
        read(&text).ok_or(format!("replay ended with {}: {text}", output.status))
    }
}

/// What `replay` prints.
fn read(text: &str) -> Option<Verdict> {
    let mut lines: Vec<&str> = text.lines().collect();
    let (answers, different) = lines.pop()?.split_once(" answers, ")?;
    let told = lines.into_iter().map(|line| {
        let (number, what) = line.strip_prefix("record ")?.split_once(": ")?;
        Some((number.parse().ok()?, what.to_string()))
    });
    Some(Verdict {
        answers: answers.parse().ok()?,
        different: different.strip_suffix(" different")?.parse().ok()?,
        told: told.collect::<Option<_>>()?,
    })
}
