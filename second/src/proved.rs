//! The proved libraries, asked through a pipe (second/answers.c stands at its other end).

use crate::model::NUMBERS;
use std::io::{Read, Write};
use std::process::{Child, Command, Stdio};
use std::sync::Mutex;

static ANSWERS: Mutex<Option<Child>> = Mutex::new(None);

/// Starts the program that answers.
pub fn start(program: &str) {
    let child = Command::new(program).stdin(Stdio::piped()).stdout(Stdio::piped()).spawn().expect("the program that answers");
    *ANSWERS.lock().unwrap() = Some(child);
}

/// A question, and so many bytes of answer.
fn ask(question: &[u8], size: usize) -> Vec<u8> {
    let mut held = ANSWERS.lock().unwrap();
    let child = held.as_mut().expect("a program that answers");
    let pipe = child.stdin.as_mut().unwrap();
    pipe.write_all(question).and_then(|()| pipe.flush()).expect("a question");
    let mut answer = vec![0; size];
    child.stdout.as_mut().unwrap().read_exact(&mut answer).expect("an answer");
    answer
}

/// Numbers laid out byte by byte, as C has them.
#[derive(Default)]
pub struct Laid(Vec<u8>);

impl Laid {
    pub fn question(number: u64) -> Laid {
        Laid(number.to_le_bytes().to_vec())
    }
    pub fn number(mut self, n: u64) -> Laid {
        self.0.extend(n.to_le_bytes());
        self
    }
    pub fn words(mut self, list: &[u32]) -> Laid {
        list.iter().for_each(|w| self.0.extend(w.to_le_bytes()));
        self
    }
    pub fn longs(mut self, list: &[u64]) -> Laid {
        list.iter().for_each(|w| self.0.extend(w.to_le_bytes()));
        self
    }
    pub fn list(self, list: &[u32]) -> Laid {
        self.number(list.len() as u64).words(list)
    }
    pub fn answer(self, size: usize) -> Answered {
        Answered(ask(&self.0, size).into_iter())
    }
}

/// An answer, read from its front.
pub struct Answered(std::vec::IntoIter<u8>);

impl Answered {
    fn bytes<const N: usize>(&mut self) -> [u8; N] {
        std::array::from_fn(|_| self.0.next().expect("a byte of the answer"))
    }
    /// The bytes that are left.
    pub fn rest(self) -> Vec<u8> {
        self.0.collect()
    }
    pub fn words(&mut self, count: usize) -> Vec<u32> {
        (0..count).map(|_| u32::from_le_bytes(self.bytes())).collect()
    }
    pub fn longs(&mut self, count: usize) -> Vec<u64> {
        (0..count).map(|_| u64::from_le_bytes(self.bytes())).collect()
    }
}

fn about(question: u64, t: &[u32], h: &[u32]) -> Laid {
    Laid::question(question).list(t).list(h)
}

pub fn verdict(t: &[u32], h: &[u32]) -> Vec<u64> {
    about(1, t, h).answer(8 * NUMBERS).longs(NUMBERS)
}

pub fn handler_demand(t: &[u32], h: &[u32], l: u64) -> Vec<u64> {
    about(2, t, h).number(l).answer(24).longs(3)
}

pub fn task_demand(t: &[u32], h: &[u32], l: u64) -> Vec<u64> {
    about(3, t, h).number(l).answer(16).longs(2)
}

/// The refusal's number, what is left over, and the margin.
pub fn margin(t: &[u32], h: &[u32], l: u64) -> (u64, u64, i64) {
    let out = about(4, t, h).number(l).answer(24).longs(3);
    (out[0], out[1], out[2] as i64)
}

/// The refusal's number or 0, and 64 lengths.
pub fn responses(t: &[u32], h: &[u32]) -> (u32, Vec<u64>) {
    let mut out = about(7, t, h).answer(65 * 8);
    (out.longs(1)[0] as u32, out.longs(64))
}

/// The refusal's number or 0, the present cost, and the new one or 0 for none.
pub fn trim(t: &[u32], h: &[u32], row: u64) -> Vec<u64> {
    about(10, t, h).number(row).answer(24).longs(3)
}

/// The refusal's number or 0, both costs, and the period.
pub fn guard_rows(bursty: bool, counts: &[u32; 9]) -> Vec<u64> {
    Laid::question(9).number(bursty as u64).words(counts).answer(32).longs(4)
}

pub fn charges(t: &[u32], h: &[u32], quantum: u64) -> Vec<u64> {
    Laid::question(11).list(t).list(h).number(quantum).answer(56).longs(7)
}

/// The word's number, the refusal's, and the first broken tick.
pub fn judge(t: &[u32], h: &[u32], segments: &[u64], span: u64) -> Vec<u64> {
    about(12, t, h).number(segments.len() as u64).longs(segments).number(span).answer(24).longs(3)
}
