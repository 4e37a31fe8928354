//! The program `room`: a reading room whose copy, record and answer lie in blocks of bytes. It
//! obeys script lines and words what each call returned (Q1.1 to Q1.7).

mod block;
pub mod line;
pub mod random;

use std::fmt::Write;

use crate::answer::Refusal;
use crate::reader::{reader_replay, reader_start, reader_value, ANSWER_BYTES, COPY_BYTES};
use crate::reader::{words_in, WORD_BYTES};
use block::Block;
use line::{is_remark, parse, Line, MOST_BYTES};

const COPY_BLOCK: usize = 33_024;
const RECORD_BLOCK: usize = 4_352;
const ANSWER_BLOCK: usize = 256;

pub struct Room {
    copy: Block,
    record: Block,
    answer: Block,
    /// Bytes lent of the copy and of the answer.
    copy_bytes: usize,
    answer_bytes: usize,
    sums: bool,
    lines: u64,
}

impl Default for Room {
    fn default() -> Self {
        Room {
            copy: Block::new(COPY_BLOCK),
            record: Block::new(RECORD_BLOCK),
            answer: Block::new(ANSWER_BLOCK),
            copy_bytes: COPY_BYTES,
            answer_bytes: ANSWER_BYTES,
            sums: false,
            lines: 0,
        }
    }
}

impl Room {
    /// Obeys one line, without its newline, and appends its output line. A remark counts and
    /// has none.
    pub fn line(&mut self, line: &[u8], output: &mut String) {
        self.lines += 1;
        let said = match line.len() <= MOST_BYTES {
            true if is_remark(line) => return,
            true => parse(line).ok_or(Refusal::Impossible).and_then(|line| self.obey(line)),
            false => Err(Refusal::Impossible),
        };
        // Writing to a String cannot fail.
        let _ = match said {
            Ok(_) => write!(output, "{} ok", self.lines),
            Err(refusal) => write!(output, "{} refused {}", self.lines, refusal.number()),
        };
        for word in said.unwrap_or_default() {
            let _ = write!(output, " {word}");
        }
        if self.sums {
            let (copy, record, answer) = (self.copy.sum(), self.record.sum(), self.answer.sum());
            let _ = write!(output, "; {copy} {record} {answer}");
        }
        output.push('\n');
    }

    /// The copy's first two words, whether or not it was started.
    pub fn pair(&self) -> [u64; 2] {
        let mut words = words_in(self.copy.lent(2 * WORD_BYTES));
        [(); 2].map(|()| words.next().expect("two words"))
    }

    /// What is printed after `ok`.
    fn obey(&mut self, line: Line) -> Result<Vec<u64>, Refusal> {
        match line {
            Line::Start => reader_start(self.copy.lent_mut(self.copy_bytes))?,
            Line::Replay(bytes) => {
                self.record.refresh();
                self.record.lent_mut(bytes.len()).copy_from_slice(&bytes);
                let record = self.record.lent(bytes.len());
                reader_replay(self.copy.lent_mut(self.copy_bytes), record)?;
                return Ok(self.pair().to_vec());
            }
            Line::Value(key) => {
                self.answer.refresh();
                let answer = self.answer.lent_mut(self.answer_bytes);
                reader_value(self.copy.lent(self.copy_bytes), key, answer)?;
                return Ok(words_in(answer).collect());
            }
            Line::Copy(bytes) => self.copy_bytes = bytes,
            Line::Answer(bytes) => self.answer_bytes = bytes,
            Line::Shift(bytes) => {
                for block in [&mut self.copy, &mut self.record, &mut self.answer] {
                    block.shift(bytes);
                }
            }
            Line::Word(place, word) => {
                let bytes = &mut self.copy.lent_mut(COPY_BYTES)[WORD_BYTES * place..];
                bytes[..WORD_BYTES].copy_from_slice(&word.to_le_bytes());
            }
            Line::Sums => self.sums = true,
        }
        Ok(vec![])
    }
}
