//! The count of cases by outcome.

use std::fmt;

use kettlefrost::raw;

use crate::codec::{self, Operation, Rule};
use crate::counts::Counts;
use crate::generate::{data_start, BREAKABLE, CODES};
use crate::remote::Remote;

/// Where a reading says that the end is reached.
#[derive(Clone, Copy, PartialEq, Eq, PartialOrd, Ord)]
pub enum EndAt {
    EmptyBuffer,
    Length,
    OnePast,
    FurtherPast,
    LargestPosition,
}

/// Why a length is fault 2.
#[derive(Clone, Copy, PartialEq, Eq, PartialOrd, Ord)]
pub enum Bounds {
    BelowSeven,
    Seven,
    OneBeyond,
    FurtherBeyond,
}

/// Why a length is fault 4.
#[derive(Clone, Copy, PartialEq, Eq, PartialOrd, Ord)]
pub enum Mismatch {
    TooShort(u32),
    KindOutside,
    RemoteWithData,
    Other(u32),
}

/// What the content rules, or the demand on the data's length, were broken by.
#[derive(Clone, Copy, PartialEq, Eq, PartialOrd, Ord)]
pub enum Breach {
    UnknownCode,
    Rule(u32, Rule),
    DataLength(u32),
    /// Above 65,535 and equal to DL or n in its low 16 bits.
    DataLengthWraps,
    Several,
}

/// Why a part is what it is.
#[derive(Clone, Copy, PartialEq, Eq, PartialOrd, Ord)]
pub enum Part {
    Given(u32),
    LengthZero,
    NoDataField,
    PastBuffer,
    HeaderDoesNotFit,
    DataDoNotFit,
    UnknownCode,
}

#[derive(Clone, Copy, PartialEq, Eq, PartialOrd, Ord)]
pub enum Outcome {
    End(EndAt),
    Read(u32),
    ReadRemote,
    Fault1 { remain: usize },
    Fault2(Bounds),
    Fault3,
    Fault4(Mismatch),
    Fault5(Breach),
    Data(Part),
    Written { code: u32, exactly: bool },
    WrittenRemote,
    WrittenLargest,
    Refusal7(Breach),
    Refusal7Before11,
    Refusal11 { code: u32, one_short: bool },
    Walked,
}

/// Counts by outcome.
pub struct Tally {
    rows: Counts<Outcome>,
    reads: u64,
    writes: u64,
}

impl Default for Tally {
    fn default() -> Tally {
        Tally::new()
    }
}

impl Tally {
    pub fn new() -> Tally {
        Tally { rows: Counts::of(outcomes()), reads: 0, writes: 0 }
    }

    /// Buffers read at a position, and operations written.
    pub fn cases(&self) -> u64 {
        self.reads + self.writes
    }

    /// The outcomes that never came up.
    pub fn missing(&self) -> impl Iterator<Item = &Outcome> {
        self.rows.missing()
    }

    fn count(&mut self, outcome: Outcome) {
        self.rows.count(outcome);
    }

    pub fn reading(&mut self, buf: &[u8], at: usize, reading: &raw::Reading) {
        self.reads += 1;
        self.count(match reading.fault {
            0 if reading.end != 0 => Outcome::End(end_at(buf, at)),
            0 => Outcome::Read(reading.operation.code),
            1 => Outcome::Fault1 { remain: buf.len() - at },
            2 => Outcome::Fault2(bounds(&buf[at..])),
            3 => Outcome::Fault3,
            4 => Outcome::Fault4(mismatch(&buf[at..reading.next])),
            _ => Outcome::Fault5(content_breach(&buf[at..reading.next])),
        });
        if is_remote(&reading.operation) {
            self.count(Outcome::ReadRemote);
        }
    }

    pub fn data(&mut self, buf: &[u8], op: &raw::Operation, next: usize, part: raw::Part) {
        self.count(Outcome::Data(match Operation::try_from(op) {
            Err(_) => Part::UnknownCode,
            Ok(_) if part.length != 0 => Part::Given(op.code),
            Ok(op) if data_start(op.code()).is_none() => Part::NoDataField,
            Ok(op) if op.data_length() == 0 => Part::LengthZero,
            Ok(_) if next > buf.len() => Part::PastBuffer,
            Ok(op) if next < op.data_length() => Part::DataDoNotFit,
            Ok(_) => Part::HeaderDoesNotFit,
        }));
    }

    pub fn written(
        &mut self,
        op: &raw::Operation,
        data: &[u8],
        room: &[u8],
        written: &raw::Written,
    ) {
        self.writes += 1;
        let code = op.code;
        match written.refusal {
            0 => {
                self.count(Outcome::Written { code, exactly: written.length == room.len() });
                if data.len() == 65_535 {
                    self.count(Outcome::WrittenLargest);
                }
                if is_remote(op) {
                    self.count(Outcome::WrittenRemote);
                }
            }
            7 => {
                self.count(Outcome::Refusal7(breach(op, data)));
                if let Ok(op) = Operation::try_from(op) {
                    if op.header_length() + data.len() > room.len() {
                        self.count(Outcome::Refusal7Before11);
                    }
                }
            }
            _ => {
                let length = Operation::try_from(op).map_or(0, |op| op.header_length());
                let one_short = length + data.len() == room.len() + 1;
                self.count(Outcome::Refusal11 { code, one_short });
            }
        }
    }

    pub fn walk(&mut self) {
        self.count(Outcome::Walked);
    }
}

fn end_at(buf: &[u8], at: usize) -> EndAt {
    match at.wrapping_sub(buf.len()) {
        _ if at == usize::MAX => EndAt::LargestPosition,
        0 if buf.is_empty() => EndAt::EmptyBuffer,
        0 => EndAt::Length,
        1 => EndAt::OnePast,
        _ => EndAt::FurtherPast,
    }
}

/// Whether an operation that was read or written is a remote frame without data.
fn is_remote(op: &raw::Operation) -> bool {
    matches!(Operation::try_from(op), Ok(Operation::CanTransmit { rtr: 1, length: 0, .. }))
}

/// The number at the front of `bytes`.
fn number(bytes: &[u8]) -> u32 {
    u32::from_le_bytes(*bytes.first_chunk().expect("four bytes are there"))
}

fn bounds(rest: &[u8]) -> Bounds {
    match number(&rest[4..]) as usize {
        0..=6 => Bounds::BelowSeven,
        7 => Bounds::Seven,
        length if length == rest.len() + 1 => Bounds::OneBeyond,
        _ => Bounds::FurtherBeyond,
    }
}

fn mismatch(piece: &[u8]) -> Mismatch {
    let code = number(piece);
    let needed = match code {
        codec::CONFIGURATION => 9,
        _ => data_start(code).unwrap_or(0),
    };
    if piece.len() < needed {
        Mismatch::TooShort(code)
    } else if code == codec::CONFIGURATION && !(1..=4).contains(&piece[8]) {
        Mismatch::KindOutside
    } else if Remote::of(Err(4), piece) == Some(Remote::WrongLength) {
        Mismatch::RemoteWithData
    } else {
        Mismatch::Other(code)
    }
}

fn content_breach(piece: &[u8]) -> Breach {
    let op = codec::parsed(piece).expect("faults 3 and 4 come first");
    only_one(broken_rules(&op))
}

/// The one reason for a refusal 7, or that there are several.
fn breach(op: &raw::Operation, data: &[u8]) -> Breach {
    let Ok(op) = Operation::try_from(op) else {
        return Breach::UnknownCode;
    };
    let mut breaches = broken_rules(&op);
    if data.len() > 65_535 && data.len() % 65_536 == op.data_length() {
        breaches.push(Breach::DataLengthWraps);
    } else if data.len() != op.data_length() {
        breaches.push(Breach::DataLength(op.code()));
    }
    only_one(breaches)
}

fn broken_rules(op: &Operation) -> Vec<Breach> {
    let mut breaches = Vec::new();
    op.check(|rule| breaches.push(Breach::Rule(op.code(), rule)));
    breaches
}

fn only_one(breaches: Vec<Breach>) -> Breach {
    match breaches[..] {
        [breach] => breach,
        _ => Breach::Several,
    }
}

/// Every outcome there is.
fn outcomes() -> Vec<Outcome> {
    use {Bounds::*, EndAt::*, Outcome::*};
    let mut all = vec![Fault3, WrittenLargest, Refusal7Before11, Walked];
    all.extend([ReadRemote, WrittenRemote, Fault4(Mismatch::RemoteWithData)]);
    all.extend([EmptyBuffer, Length, OnePast, FurtherPast, LargestPosition].map(End));
    all.extend((1..=7).map(|remain| Fault1 { remain }));
    all.extend([BelowSeven, Seven, OneBeyond, FurtherBeyond].map(Fault2));
    all.push(Fault4(Mismatch::KindOutside));
    all.push(Fault4(Mismatch::TooShort(codec::CONFIGURATION)));
    for code in CODES {
        all.extend([Read(code), Fault4(Mismatch::Other(code))]);
        all.extend([true, false].map(|exactly| Written { code, exactly }));
        all.extend([true, false].map(|one_short| Refusal11 { code, one_short }));
        all.push(Refusal7(Breach::DataLength(code)));
        if data_start(code).is_some() {
            all.extend([Fault4(Mismatch::TooShort(code)), Data(Part::Given(code))]);
        }
    }
    for (code, rule) in BREAKABLE {
        all.push(Refusal7(Breach::Rule(code, rule)));
        // A kind outside 1 to 4 is fault 4.
        if rule != Rule::Kind {
            all.push(Fault5(Breach::Rule(code, rule)));
        }
    }
    all.push(Fault5(Breach::Several));
    all.extend([Breach::UnknownCode, Breach::DataLengthWraps, Breach::Several].map(Refusal7));
    all.extend([Part::LengthZero, Part::NoDataField, Part::UnknownCode].map(Data));
    all.extend([Part::PastBuffer, Part::HeaderDoesNotFit, Part::DataDoNotFit].map(Data));
    all
}

fn kind(code: u32) -> &'static str {
    codec::name(code).unwrap_or("unknown")
}

impl fmt::Display for Rule {
    fn fmt(&self, f: &mut fmt::Formatter) -> fmt::Result {
        f.write_str(match self {
            Rule::Ide => "Ide",
            Rule::Rtr => "Rtr",
            Rule::Brs => "Brs",
            Rule::Esi => "Esi",
            Rule::Sec => "Sec",
            Rule::IsSender => "Is Sender",
            Rule::StandardId => "ID with Ide 0",
            Rule::ExtendedId => "ID with Ide 1",
            Rule::Id => "ID",
            Rule::DataLength => "DL",
            Rule::RemoteData => "remote frame with data",
            Rule::Kind => "kind",
            Rule::BaudRate => "baud rate",
            Rule::Behaviour => "behaviour",
            Rule::ErrorCode => "Error Code",
            Rule::ErrorFlag => "Error Flag",
            Rule::Status => "status",
        })
    }
}

impl fmt::Display for Breach {
    fn fmt(&self, f: &mut fmt::Formatter) -> fmt::Result {
        match *self {
            Breach::UnknownCode => write!(f, "unknown code"),
            Breach::Rule(code, rule) => write!(f, "{}: {rule}", kind(code)),
            Breach::DataLength(code) => write!(f, "{}: length of the data", kind(code)),
            Breach::DataLengthWraps => write!(f, "data above 65,535, equal modulo 65,536"),
            Breach::Several => write!(f, "several rules"),
        }
    }
}

impl fmt::Display for Outcome {
    fn fmt(&self, f: &mut fmt::Formatter) -> fmt::Result {
        match *self {
            Outcome::End(at) => f.write_str(match at {
                EndAt::EmptyBuffer => "end, empty buffer",
                EndAt::Length => "end, at the length",
                EndAt::OnePast => "end, one past the length",
                EndAt::FurtherPast => "end, further past the length",
                EndAt::LargestPosition => "end, largest position",
            }),
            Outcome::Read(code) => write!(f, "read, {}", kind(code)),
            Outcome::ReadRemote => write!(f, "read, remote frame"),
            Outcome::Fault1 { remain } => write!(f, "fault 1, {remain} remain"),
            Outcome::Fault2(bounds) => f.write_str(match bounds {
                Bounds::BelowSeven => "fault 2, length 0 to 6",
                Bounds::Seven => "fault 2, length 7",
                Bounds::OneBeyond => "fault 2, one beyond what remains",
                Bounds::FurtherBeyond => "fault 2, further beyond",
            }),
            Outcome::Fault3 => write!(f, "fault 3"),
            Outcome::Fault4(Mismatch::TooShort(code)) => {
                write!(f, "fault 4, {}: too short to hold DL, n or kind", kind(code))
            }
            Outcome::Fault4(Mismatch::KindOutside) => {
                write!(f, "fault 4, Configuration: kind outside 1 to 4")
            }
            Outcome::Fault4(Mismatch::RemoteWithData) => {
                write!(f, "fault 4, CAN Transmit: remote frame with data")
            }
            Outcome::Fault4(Mismatch::Other(code)) => {
                write!(f, "fault 4, {}: other length", kind(code))
            }
            Outcome::Fault5(breach) => write!(f, "fault 5, {breach}"),
            Outcome::Data(part) => match part {
                Part::Given(code) => write!(f, "data, {}", kind(code)),
                Part::LengthZero => write!(f, "no data, DL or n is 0"),
                Part::NoDataField => write!(f, "no data, kind without"),
                Part::PastBuffer => write!(f, "no data, place past the buffer"),
                Part::HeaderDoesNotFit => write!(f, "no data, header does not fit"),
                Part::DataDoNotFit => write!(f, "no data, data do not fit"),
                Part::UnknownCode => write!(f, "no data, unknown code"),
            },
            Outcome::Written { code, exactly: true } => {
                write!(f, "written, {}, fits exactly", kind(code))
            }
            Outcome::Written { code, exactly: false } => {
                write!(f, "written, {}, room left", kind(code))
            }
            Outcome::WrittenRemote => write!(f, "written, remote frame"),
            Outcome::WrittenLargest => write!(f, "written, data of 65,535 bytes"),
            Outcome::Refusal7(breach) => write!(f, "refusal 7, {breach}"),
            Outcome::Refusal7Before11 => write!(f, "refusal 7 where 11 applies too"),
            Outcome::Refusal11 { code, one_short: true } => {
                write!(f, "refusal 11, {}, one short", kind(code))
            }
            Outcome::Refusal11 { code, one_short: false } => {
                write!(f, "refusal 11, {}, shorter", kind(code))
            }
            Outcome::Walked => write!(f, "whole buffers read to the end"),
        }
    }
}

impl fmt::Display for Tally {
    fn fmt(&self, f: &mut fmt::Formatter) -> fmt::Result {
        self.rows.fmt(f)
    }
}

#[cfg(test)]
mod tests {
    use super::*;

    #[test]
    fn outcomes_that_never_came_up_are_named() {
        let mut tally = Tally::new();
        let rows = tally.missing().count();
        tally.reading(&[], 0, &raw::Reading { end: 1, ..raw::Reading::default() });
        assert_eq!(tally.missing().count(), rows - 1);
        assert!(!tally.missing().any(|row| *row == Outcome::End(EndAt::EmptyBuffer)));
    }
}
