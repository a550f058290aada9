//! Tells in words what the proved program said to each command of a stream:
//!
//!     explain STREAM LINES
//!
//! STREAM is a file with the stream, LINES one with what the program printed for it.

mod answers;
mod record;
mod wording;

use answers::{spelling, LONGEST_STREAM};
use record::{record, Entry, Replay};
use std::fmt::Write as _;
use std::io::{self, Write as _};
use std::{env, fs, process};

/// Sentences up to this long have the answer beside them, longer ones below.
const WIDEST: usize = 72;

fn main() {
    let arguments: Vec<String> = env::args().skip(1).collect();
    let [stream, lines] = arguments.as_slice() else {
        eprintln!("usage: explain STREAM LINES");
        process::exit(2);
    };
    let told = fs::read(stream)
        .and_then(|stream| Ok((stream, fs::read_to_string(lines)?)))
        .map_err(|error| error.to_string())
        .and_then(|(stream, lines)| explain(&stream, &lines));
    match told {
        // A reader who has seen enough, like `head`, is no failure.
        Ok(told) => drop(io::stdout().lock().write_all(told.as_bytes())),
        Err(error) => {
            eprintln!("explain: {error}");
            process::exit(1);
        }
    }
}

fn explain(stream: &[u8], lines: &str) -> Result<String, String> {
    let entries = record(stream, lines)?;
    let sentences: Vec<String> = entries.iter().map(|entry| sentence(stream, entry)).collect();
    let offset_width = entries.last().map_or(1, |entry| entry.offset.to_string().len());
    let width = sentences.iter().map(|sentence| sentence.chars().count()).filter(|&width| width <= WIDEST).max();
    let width = width.unwrap_or(0);
    let margin = offset_width + 5;

    let mut told = String::new();
    let mut replay = Replay::default();
    for (entry, sentence) in entries.iter().zip(&sentences) {
        let name = if entry.is_fault() && spelling(entry.letter).is_none() { '?' } else { entry.letter as char };
        let answer = wording::answer(entry, &replay);
        let written = if sentence.chars().count() <= width {
            writeln!(told, "{:>offset_width$}  {name}  {sentence:width$}  {answer}", entry.offset)
        } else {
            writeln!(told, "{:>offset_width$}  {name}  {sentence}\n{:margin$}{:width$}  {answer}", entry.offset, "", "")
        };
        written.expect("a string takes every line");
        for detail in wording::details(entry, &replay) {
            writeln!(told, "{:margin$}    {detail}", "").expect("a string takes every line");
        }
        if let Err(error) = replay.follow(entry) {
            // What was told so far stands.
            print!("{told}");
            return Err(error);
        }
    }
    told.push_str(&ending(stream, &entries));
    Ok(told)
}

/// The command as a sentence, or which bytes are at fault.
fn sentence(stream: &[u8], entry: &Entry) -> String {
    match spelling(entry.letter) {
        None => format!("byte {} ({:#04x})", entry.letter, entry.letter),
        Some(spelling) if entry.is_fault() => {
            let wanted: usize = spelling.iter().map(|operand| operand.width()).sum();
            let there = stream.len().min(LONGEST_STREAM) - entry.offset - 1;
            format!("{there} of the {wanted} bytes after the letter are there")
        }
        Some(_) => wording::command(entry.letter, &entry.operands),
    }
}

/// Where the reading ended, if that was not the end of the stream.
fn ending(stream: &[u8], entries: &[Entry]) -> String {
    let mut told = String::new();
    if let Some(fault) = entries.last().filter(|entry| entry.is_fault()) {
        let unread = stream.len() - fault.offset;
        let plural = if unread == 1 { "" } else { "s" };
        told += &format!("The stream is read no further than offset {}: {unread} byte{plural} left.\n", fault.offset);
    }
    if stream.len() > LONGEST_STREAM {
        told += &format!("The stream has {} bytes; the program reads the first {LONGEST_STREAM}.\n", stream.len());
    }
    told
}
