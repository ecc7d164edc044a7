//! The comparison of two codecs, number for number and byte for byte.

use std::fmt::{self, Debug, Write as _};

use kettlefrost::raw;

use crate::codec::{self, Operation, Reading};
use crate::generate::{Case, Generator};
use crate::records::UnknownCode;
use crate::tally::Tally;

/// A codec in the library's terms. Both sides are compared in these, so that
/// fields that a kind does not have are compared too.
pub trait Codec {
    fn read(&self, buf: &[u8], at: usize) -> raw::Reading;
    fn data(&self, buf: &[u8], op: &raw::Operation, next: usize) -> raw::Part;
    fn write(&self, op: &raw::Operation, data: &[u8], buf: &mut [u8]) -> raw::Written;
}

/// The proved library.
pub struct Library;

impl Codec for Library {
    fn read(&self, buf: &[u8], at: usize) -> raw::Reading {
        raw::read(buf, at)
    }

    fn data(&self, buf: &[u8], op: &raw::Operation, next: usize) -> raw::Part {
        raw::data(buf, *op, next)
    }

    fn write(&self, op: &raw::Operation, data: &[u8], buf: &mut [u8]) -> raw::Written {
        raw::write(*op, data, buf)
    }
}

/// The codec of this package.
pub struct Second;

impl Codec for Second {
    fn read(&self, buf: &[u8], at: usize) -> raw::Reading {
        match codec::read(buf, at) {
            Reading::End => raw::Reading { end: 1, next: at, ..raw::Reading::default() },
            Reading::Fault { number, next } => {
                raw::Reading { fault: number.into(), next, ..raw::Reading::default() }
            }
            Reading::Found { op, next } => raw::Reading {
                operation: raw::Operation::from(&op),
                next,
                ..raw::Reading::default()
            },
        }
    }

    fn data(&self, buf: &[u8], op: &raw::Operation, next: usize) -> raw::Part {
        let data = Operation::try_from(op).map_or(&[][..], |op| codec::data(buf, &op, next));
        if data.is_empty() {
            return raw::Part::default();
        }
        raw::Part { start: data.as_ptr().addr() - buf.as_ptr().addr(), length: data.len() }
    }

    fn write(&self, op: &raw::Operation, data: &[u8], buf: &mut [u8]) -> raw::Written {
        let answer = match Operation::try_from(op) {
            Ok(op) => codec::write(&op, data, buf),
            Err(UnknownCode) => Err(7),
        };
        match answer {
            Ok(length) => raw::Written { refusal: 0, length },
            Err(number) => raw::Written { refusal: number.into(), length: 0 },
        }
    }
}

/// An input on which the two sides, or a side and the rule, differ.
#[derive(Debug)]
pub struct Difference {
    what: &'static str,
    input: String,
    left: String,
    right: String,
}

impl fmt::Display for Difference {
    fn fmt(&self, f: &mut fmt::Formatter) -> fmt::Result {
        writeln!(f, "difference in {}", self.what)?;
        writeln!(f, "input: {}", self.input)?;
        writeln!(f, "left:  {}", self.left)?;
        write!(f, "right: {}", self.right)
    }
}

/// Bytes, shown in hexadecimal.
#[derive(PartialEq)]
struct Bytes<'a>(&'a [u8]);

impl Debug for Bytes<'_> {
    fn fmt(&self, f: &mut fmt::Formatter) -> fmt::Result {
        let mut text = String::with_capacity(3 * self.0.len());
        for byte in self.0 {
            write!(text, "{byte:02X} ")?;
        }
        write!(f, "{} bytes: {}", self.0.len(), text.trim_end())
    }
}

fn agree<T: PartialEq + Debug>(
    what: &'static str,
    input: &dyn Fn() -> String,
    left: T,
    right: T,
) -> Result<T, Box<Difference>> {
    if left == right {
        return Ok(left);
    }
    let (left, right) = (format!("{left:?}"), format!("{right:?}"));
    Err(Box::new(Difference { what, input: input(), left, right }))
}

/// Bytes kept on either side of a buffer to write into, to be left alone.
const MARGIN: usize = 16;
const MARGIN_BYTE: u8 = 0xC3;

/// Two codecs, and the count of what they were seen to answer.
pub struct Comparison<L, R> {
    left: L,
    right: R,
    pub tally: Tally,
}

impl<L: Codec, R: Codec> Comparison<L, R> {
    pub fn new(left: L, right: R) -> Self {
        Comparison { left, right, tally: Tally::new() }
    }

    /// Runs generated cases until there are enough, or two answers differ.
    pub fn run(&mut self, seed: u64, cases: u64) -> Result<(), Box<Difference>> {
        let mut generator = Generator::new(seed);
        while self.tally.cases() < cases {
            self.case(&generator.case())?;
        }
        Ok(())
    }

    /// Runs one case on both sides.
    fn case(&mut self, case: &Case) -> Result<(), Box<Difference>> {
        match case {
            Case::Read { buf, at } => self.read(buf, *at).map(drop),
            Case::Cuts { buf } => {
                (0..=buf.len()).try_for_each(|length| self.read(&buf[..length], 0).map(drop))
            }
            Case::Walk { buf } => self.walk(buf),
            Case::Data { buf, op, next } => self.data(buf, op, *next).map(drop),
            Case::Write { op, data, room } => self.write(op, data, room).map(drop),
        }
    }

    /// One reading, and for an operation its data and its writing back.
    fn read(&mut self, buf: &[u8], at: usize) -> Result<raw::Reading, Box<Difference>> {
        let input = || format!("read at {at} of {:?}", Bytes(buf));
        let (left, right) = (self.left.read(buf, at), self.right.read(buf, at));
        let reading = agree("reading", &input, left, right)?;
        self.tally.reading(buf, at, &reading);
        if reading.end == 0 && reading.fault == 0 {
            let part = self.data(buf, &reading.operation, reading.next)?;
            self.write_back(&buf[at..reading.next], &reading.operation, part, at)?;
        }
        Ok(reading)
    }

    /// Writes what was read, over the complement of its bytes.
    fn write_back(
        &mut self,
        piece: &[u8],
        op: &raw::Operation,
        part: raw::Part,
        at: usize,
    ) -> Result<(), Box<Difference>> {
        let start = part.start.saturating_sub(at);
        let data = &piece[start..start + part.length];
        let room: Vec<u8> = piece.iter().map(|byte| !byte).collect();
        let written = self.write(op, data, &room)?;
        let input = || format!("{op:?} read from {:?}", Bytes(piece));
        agree("writing back", &input, Bytes(&written), Bytes(piece)).map(drop)
    }

    /// Reads a buffer to its end; the pieces taken up, put together, are it.
    fn walk(&mut self, buf: &[u8]) -> Result<(), Box<Difference>> {
        let mut pieces = Vec::with_capacity(buf.len());
        let mut at = 0;
        loop {
            let reading = self.read(buf, at)?;
            if reading.end != 0 {
                break;
            }
            let input = || format!("read at {at} of {:?}", Bytes(buf));
            let forward = at < reading.next && reading.next <= buf.len();
            agree("going forward", &input, forward, true)?;
            pieces.extend_from_slice(&buf[at..reading.next]);
            at = reading.next;
        }
        let input = || format!("walk of {:?}", Bytes(buf));
        agree("pieces", &input, Bytes(&pieces), Bytes(buf))?;
        self.tally.walk();
        Ok(())
    }

    fn data(
        &mut self,
        buf: &[u8],
        op: &raw::Operation,
        next: usize,
    ) -> Result<raw::Part, Box<Difference>> {
        let input = || format!("data of {op:?} ending at {next} of {:?}", Bytes(buf));
        let (left, right) = (self.left.data(buf, op, next), self.right.data(buf, op, next));
        let part = agree("data", &input, left, right)?;
        self.tally.data(buf, op, next, part);
        Ok(part)
    }

    /// One writing over `room`, which both sides get a copy of; gives the bytes
    /// written.
    fn write(
        &mut self,
        op: &raw::Operation,
        data: &[u8],
        room: &[u8],
    ) -> Result<Vec<u8>, Box<Difference>> {
        let input = || format!("write {op:?}, data {:?}, over {:?}", Bytes(data), Bytes(room));
        let before = [&[MARGIN_BYTE; MARGIN], room, &[MARGIN_BYTE; MARGIN]].concat();
        let (mut left, mut right) = (before.clone(), before.clone());
        let lent = MARGIN..MARGIN + room.len();
        let left_answer = self.left.write(op, data, &mut left[lent.clone()]);
        let right_answer = self.right.write(op, data, &mut right[lent]);
        let written = agree("answer to write", &input, left_answer, right_answer)?;
        agree("buffer after write", &input, Bytes(&left), Bytes(&right))?;
        let end = MARGIN + written.length;
        let (front, back) = (Bytes(&left[..MARGIN]), Bytes(&left[end..]));
        agree("bytes in front", &input, front, Bytes(&before[..MARGIN]))?;
        agree("bytes past the length", &input, back, Bytes(&before[end..]))?;
        self.tally.written(op, data, room, &written);
        left.truncate(end);
        left.drain(..MARGIN);
        Ok(left)
    }
}
