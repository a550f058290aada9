//! A stream together with what the proved program printed for it, command by command.
//!
//! Nothing here answers a command: whether one was taken or refused is read off the program's lines, so whatever is told
//! of the state of the box follows from the commands that the program took.

use crate::answers::{operands, spelling, Answer, ClearingBox, Consent, Refusal, LONGEST_STREAM};

/// A command and the program's answer to it.
#[derive(Debug, Clone)]
pub struct Entry {
    pub offset: usize,
    pub letter: u8,
    /// Empty after a fault, where they are missing or there is no command to have any.
    pub operands: Vec<i64>,
    pub answer: Answer,
    /// What was printed behind offset and letter.
    pub printed: String,
}

impl Entry {
    /// Nothing more of the stream is read after this answer.
    pub fn is_fault(&self) -> bool {
        matches!(self.answer, Err(Refusal { number: 1 | 2, .. }))
    }

    /// The house whose sheet was judged, if this is a try or a settle that got as far as the rules of the sheet.
    pub fn judged(&self) -> Option<usize> {
        let reached = match self.answer {
            Ok(_) => true,
            Err(refusal) => refusal.number >= 10,
        };
        (matches!(self.letter, b'Q' | b'S') && reached).then(|| self.operands[0] as usize)
    }
}

/// Match each line with its command. The lines must be those of exactly this stream.
pub fn record(stream: &[u8], lines: &str) -> Result<Vec<Entry>, String> {
    let stream = &stream[..stream.len().min(LONGEST_STREAM)];
    let mut entries: Vec<Entry> = Vec::new();
    let mut offset = 0;
    for line in lines.lines() {
        let astray = || format!("not the line of the command at offset {offset}: {line}");
        if entries.last().is_some_and(Entry::is_fault) {
            return Err(format!("a line after the end of reading: {line}"));
        }
        let (told, rest) = line.split_once(' ').ok_or_else(astray)?;
        let (name, printed) = rest.split_once(' ').ok_or_else(astray)?;
        let answer = answer(printed).ok_or_else(|| format!("not an answer: {line}"))?;
        let letter = *stream.get(offset).ok_or_else(astray)?;
        let spelling = spelling(letter);
        let known_as = if spelling.is_some() { letter as char } else { '?' };
        if told != offset.to_string() || name != known_as.to_string() {
            return Err(astray());
        }
        let mut entry = Entry { offset, letter, operands: Vec::new(), answer, printed: printed.to_string() };
        let read = spelling.and_then(|spelling| operands(spelling, &stream[offset + 1..]));
        if read.is_none() != entry.is_fault() {
            return Err(astray());
        }
        if let Some((operands, width)) = read {
            entry.operands = operands;
            offset += 1 + width;
        }
        entries.push(entry);
    }
    if offset < stream.len() && !entries.last().is_some_and(Entry::is_fault) {
        return Err(format!("no line for the command at offset {offset}"));
    }
    Ok(entries)
}

/// The answer that a line tells behind offset and letter.
fn answer(printed: &str) -> Option<Answer> {
    let mut words = printed.split(' ');
    let verdict = words.next()?;
    let numbers: Vec<i128> = words.map(|word| word.parse().ok()).collect::<Option<_>>()?;
    match (verdict, numbers.as_slice()) {
        ("ok", []) => Some(Ok(Consent::Done)),
        ("accepted", &[welfare, rent, first, second]) => {
            Some(Ok(Consent::Accepted { welfare, rent, accounts: [first, second] }))
        }
        ("refused", &[number, first, second]) => {
            Some(Err(Refusal { number: number.try_into().ok()?, place: (first.try_into().ok()?, second.try_into().ok()?) }))
        }
        _ => None,
    }
}

/// The state of the box, as the commands that the program took make it.
#[derive(Clone, Default)]
pub struct Replay {
    pub clearing: ClearingBox,
    /// In a tree, the parent of each zone but 0.
    pub parents: Vec<usize>,
}

impl Replay {
    /// Do what a command did, which is nothing if it was refused.
    pub fn follow(&mut self, entry: &Entry) -> Result<(), String> {
        let Ok(printed) = entry.answer else { return Ok(()) };
        if self.clearing.command(entry.letter, &entry.operands) != Ok(printed) {
            return Err(format!("at offset {} the second program answers otherwise: see second/compare", entry.offset));
        }
        if entry.letter == b'K' {
            self.parents.push(entry.operands[0] as usize);
        }
        Ok(())
    }

    /// The zones that a line of a tree's link goes from and to.
    pub fn ends(&self, line: usize) -> Option<(usize, usize)> {
        let child = line / 2 + 1;
        let parent = *self.parents.get(line / 2)?;
        Some(if line % 2 == 0 { (child, parent) } else { (parent, child) })
    }
}
