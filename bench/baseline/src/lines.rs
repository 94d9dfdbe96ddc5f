//! The lines of answers, collected before they are written.

use crate::decision::Answer;

/// Bytes of the longest line, "modify 31 63 64\n". Every line is copied whole, and what is behind its end is written over.
const LONGEST: usize = 16;
const FLUSH_AT: usize = 4_000;

#[derive(Clone, Copy)]
struct Line {
    text: [u8; LONGEST],
    length: u8,
}

impl Line {
    const fn new(start: &[u8]) -> Line {
        let mut line = Line { text: [0; LONGEST], length: 0 };
        while (line.length as usize) < start.len() {
            line = line.byte(start[line.length as usize]);
        }
        line
    }

    const fn byte(mut self, byte: u8) -> Line {
        self.text[self.length as usize % LONGEST] = byte;
        self.length += 1;
        self
    }

    /// With a number below 100 behind it.
    const fn number(self, n: u8) -> Line {
        let line = if n >= 10 { self.byte(b'0' + n / 10) } else { self };
        line.byte(b'0' + n % 10)
    }
}

/// A word with each number, and what comes behind it.
const fn numbered<const N: usize>(word: &[u8], end: u8) -> [Line; N] {
    let mut lines = [Line::new(word); N];
    let mut n = 0;
    while n < N {
        lines[n] = lines[n].number(n as u8).byte(end);
        n += 1;
    }
    lines
}

// As many as a power of two, so that a mask leaves out the test of the bounds.
static ALLOW: [Line; 128] = numbered(b"allow ", b'\n');
static INHIBIT: [Line; 32] = numbered(b"inhibit ", b'\n');
static MODIFY: [Line; 32] = numbered(b"modify ", b' ');
static LOADED: [Line; 32] = numbered(b"rule ", b'\n');
static REFUSED: [Line; 32] = numbered(b"refused ", b'\n');

pub struct Lines {
    bytes: [u8; FLUSH_AT + LONGEST],
    length: usize,
}

impl Lines {
    pub fn new() -> Lines {
        Lines { bytes: [0; FLUSH_AT + LONGEST], length: 0 }
    }

    /// Appends the line of an answer.
    pub fn push(&mut self, answer: Answer) {
        match answer {
            Answer::Allow(gained) => self.append(&ALLOW[usize::from(gained) % ALLOW.len()]),
            Answer::Inhibit(rule) => self.append(&INHIBIT[usize::from(rule) % INHIBIT.len()]),
            Answer::Modify(rule, substitute, gained) => {
                let line = MODIFY[usize::from(rule) % MODIFY.len()].number(substitute.number());
                self.append(&line.byte(b' ').number(gained).byte(b'\n'));
            }
            Answer::Loaded(rule) => self.append(&LOADED[usize::from(rule) % LOADED.len()]),
            Answer::Refused(refusal) => self.append(&REFUSED[refusal as usize % REFUSED.len()]),
        }
    }

    /// There is room while the lines are not full.
    fn append(&mut self, line: &Line) {
        if let Some(place) = self.bytes.get_mut(self.length..self.length + LONGEST) {
            place.copy_from_slice(&line.text);
            self.length += usize::from(line.length);
        }
    }

    pub fn is_full(&self) -> bool {
        self.length > FLUSH_AT
    }

    /// Takes all lines out.
    pub fn take(&mut self) -> &[u8] {
        let length = self.length;
        self.length = 0;
        &self.bytes[..length]
    }
}
