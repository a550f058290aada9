//! Streams from commands, and commands from readable text.

#![allow(dead_code)] // each program that includes this module uses a part of it

use crate::answers::{spelling, Answer, ClearingBox};

/// The bytes of one command. Operands that are left out at the end are 0.
pub fn encode(letter: u8, operands: &[i64]) -> Vec<u8> {
    let spelling = spelling(letter).expect("a letter that names a command");
    assert!(operands.len() <= spelling.len(), "{} has {} operands", letter as char, spelling.len());
    let mut bytes = vec![letter];
    for (number, operand) in spelling.iter().enumerate() {
        let value = operands.get(number).copied().unwrap_or(0);
        let written = &value.to_le_bytes()[..operand.width()];
        assert_eq!(operand.value(written), value, "operand {number} of {} does not fit", letter as char);
        bytes.extend(written);
    }
    bytes
}

/// The stream of commands in readable text: `;` or a line's end between commands, spaces between words.
pub fn stream_of(text: &str) -> Vec<u8> {
    let mut stream = Vec::new();
    for command in text.split([';', '\n']) {
        let mut words = command.split_whitespace();
        if let Some(letter) = words.next() {
            let operands: Vec<i64> = words.map(|word| word.parse().expect("a number")).collect();
            stream.extend(encode(letter.as_bytes()[0], &operands));
        }
    }
    stream
}

/// A stream in the making, with a box that answers each command at once, so that what follows can depend on it.
#[derive(Clone, Default)]
pub struct Script {
    pub bytes: Vec<u8>,
    pub clearing: ClearingBox,
}

impl Script {
    pub fn new() -> Script {
        Script::default()
    }

    pub fn put(&mut self, letter: u8, operands: &[i64]) -> Answer {
        let mut operands = operands.to_vec();
        operands.resize(spelling(letter).expect("a letter that names a command").len(), 0);
        self.bytes.extend(encode(letter, &operands));
        self.clearing.command(letter, &operands)
    }
}
