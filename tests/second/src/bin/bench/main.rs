//! Throughput of the proved library against the second program, and against C
//! without any check as the floor: the same input, in the same run, a second and
//! as ratios.
//!
//! The library is reached by a call that the compiler cannot see through. The
//! second program is measured twice: behind a call of the same kind, and as it
//! is best used, inlined into the loop. The floor is called as the library is,
//! but goes through a whole stream when it decodes.
//!
//! With two shared libraries as arguments, one build of the library is measured
//! against the other instead: first the one before a change, then the one after.

mod bus;
mod floor;
mod loaded;
mod measure;

use std::env;
use std::hint::black_box;
use std::process::ExitCode;

use kettlefrost::raw;
use second::codec::{self, Operation, Reading};
use second::generate::Generator;

use loaded::{AFTER, BEFORE};
use measure::{measure, Row, Ways, SAMPLES};

const STREAM_BYTES: usize = 64 * 1024;
const SEED: u64 = 11_898;

/// What is measured against each other.
const WAYS: [&str; 4] = ["library", "Rust by call", "Rust inlined", "C, no checks"];
const BUILDS: [&str; 2] = ["after", "before"];

/// The same operations in both codecs' forms and as bytes.
struct Stream {
    name: &'static str,
    bytes: Vec<u8>,
    operations: Vec<(Operation, Vec<u8>)>,
    flat: Vec<(raw::Operation, Vec<u8>)>,
}

impl Stream {
    fn new(name: &'static str, mut source: impl FnMut() -> (Operation, Vec<u8>)) -> Stream {
        let mut stream =
            Stream { name, bytes: Vec::new(), operations: Vec::new(), flat: Vec::new() };
        while stream.bytes.len() < STREAM_BYTES {
            let (op, data) = source();
            let start = stream.bytes.len();
            stream.bytes.resize(start + op.header_length() + data.len(), 0);
            op.put(&data, &mut stream.bytes[start..]);
            stream.flat.push((raw::Operation::from(&op), data.clone()));
            stream.operations.push((op, data));
        }
        stream
    }

    /// CAN Transmits of 8 bytes.
    fn can() -> Stream {
        let mut id = 0;
        Stream::new("CAN Transmit, 8 bytes", || {
            id = (id + 1) % 2048;
            (Operation::CanTransmit { id, ide: 0, rtr: 0, length: 8 }, vec![id as u8; 8])
        })
    }

    /// All ten kinds in random order, with data of up to 256 bytes.
    fn mixed() -> Stream {
        let mut generator = Generator::new(SEED);
        Stream::new("ten kinds mixed", || loop {
            let (op, data) = generator.sound_with_data();
            if data.len() <= 256 {
                return (op, data);
            }
        })
    }

    /// Room for as many writings of it.
    fn outputs<const N: usize>(&self) -> [Vec<u8>; N] {
        let mut outs = [const { Vec::new() }; N];
        outs.fill(vec![0; self.bytes.len()]);
        outs
    }

    /// Each of them wrote its bytes.
    fn hold(&self, outs: &[Vec<u8>]) {
        assert!(outs.iter().all(|out| *out == self.bytes), "encode: the bytes differ");
    }

    fn measure<const N: usize>(&self, what: &str, names: &[&str; N], ways: Ways<N>) {
        let title = &format!("{what}, {}", self.name);
        measure(&Row { title, units: "operations", steps: self.operations.len() }, names, ways);
    }
}

// A result larger than two registers comes back through a pointer under the
// Rust calling convention as under C's, and slices go as pointer and length
// under both. So a call that is not inlined costs here what it costs with the
// library, and each side still answers in its natural form.

#[inline(never)]
fn read_by_call(buf: &[u8], at: usize) -> Reading {
    codec::read(buf, at)
}

#[inline(never)]
fn write_by_call(op: &Operation, data: &[u8], buf: &mut [u8]) -> Result<usize, u8> {
    codec::write(op, data, buf)
}

/// A sum of the fields that the kind has.
#[inline(always)]
fn sum(op: &Operation) -> u64 {
    let add = |words: [u32; 3], bytes: [u8; 4]| {
        words.map(u64::from).iter().sum::<u64>() + bytes.map(u64::from).iter().sum::<u64>()
    };
    match *op {
        Operation::FormatError { length } => length.into(),
        Operation::CanTransmit { id, ide, rtr, length } => {
            add([id, length.into(), 0], [ide, rtr, 0, 0])
        }
        Operation::FdTransmit { id, ide, brs, esi, length } => {
            add([id, length.into(), 0], [ide, brs, esi, 0])
        }
        Operation::XlTransmit { id, ide, sec, sdt, vcid, af, length } => {
            add([id, af, length.into()], [ide, sec, sdt, vcid])
        }
        Operation::Confirm { id } | Operation::ArbitrationLost { id } => id.into(),
        Operation::BusError { id, error_code, error_flag, is_sender } => {
            add([id, 0, 0], [error_code, error_flag, is_sender, 0])
        }
        Operation::Configuration { kind, value } => add([value, 0, 0], [kind, 0, 0, 0]),
        Operation::Status { status } => status.into(),
        Operation::Wakeup => 0,
    }
}

/// Reads a whole stream with the library. The flat answer is taken apart by its
/// code, as the other side's is by its case.
fn decode_library(buf: &[u8], read: impl Fn(&[u8], usize) -> raw::Reading) -> u64 {
    let (mut at, mut total) = (0, 0);
    loop {
        let reading = read(buf, at);
        match Operation::try_from(&reading.operation) {
            Ok(op) => total += sum(&op),
            Err(_) => return total,
        }
        at = reading.next;
    }
}

#[inline(always)]
fn decode_second(buf: &[u8], read: impl Fn(&[u8], usize) -> Reading) -> u64 {
    let (mut at, mut total) = (0, 0);
    while let Reading::Found { op, next } = read(buf, at) {
        total += sum(&op);
        at = next;
    }
    total
}

fn encode_library(
    stream: &Stream,
    out: &mut [u8],
    write: impl Fn(raw::Operation, &[u8], &mut [u8]) -> raw::Written,
) -> u64 {
    let mut at = 0;
    for (op, data) in &stream.flat {
        at += write(*op, data, &mut out[at..]).length;
    }
    at as u64
}

#[inline(always)]
fn encode_second(
    stream: &Stream,
    out: &mut [u8],
    write: impl Fn(&Operation, &[u8], &mut [u8]) -> Result<usize, u8>,
) -> u64 {
    let mut at = 0;
    for (op, data) in &stream.operations {
        at += write(op, data, &mut out[at..]).unwrap_or(0);
    }
    at as u64
}

// The streams are valid, and what they are written to has their length.

fn decode_floor(buf: &[u8]) -> u64 {
    unsafe { floor::floor_decode(buf.as_ptr(), buf.len()) }
}

fn encode_floor(stream: &Stream, out: &mut [u8]) -> u64 {
    let mut at = 0;
    for (op, data) in &stream.flat {
        at += unsafe { floor::floor_write(op, data.as_ptr(), out[at..].as_mut_ptr()) };
    }
    at as u64
}

fn measure_decode(stream: &Stream) {
    let bytes = &stream.bytes[..];
    let ways: Ways<4> = [
        Box::new(|| decode_library(black_box(bytes), raw::read)),
        Box::new(|| decode_second(black_box(bytes), read_by_call)),
        Box::new(|| decode_second(black_box(bytes), codec::read)),
        Box::new(|| decode_floor(black_box(bytes))),
    ];
    stream.measure("decode", &WAYS, ways);
}

fn measure_encode(stream: &Stream) {
    let mut outs: [Vec<u8>; 4] = stream.outputs();
    let [out_1, out_2, out_3, out_4] = &mut outs;
    let ways: Ways<4> = [
        Box::new(|| encode_library(black_box(stream), black_box(out_1), raw::write)),
        Box::new(|| encode_second(black_box(stream), black_box(out_2), write_by_call)),
        Box::new(|| encode_second(black_box(stream), black_box(out_3), codec::write)),
        Box::new(|| encode_floor(black_box(stream), black_box(out_4))),
    ];
    stream.measure("encode", &WAYS, ways);
    stream.hold(&outs);
}

fn measure_decode_builds(stream: &Stream) {
    let bytes = &stream.bytes[..];
    let ways: Ways<2> = [
        Box::new(|| decode_library(black_box(bytes), loaded::read::<AFTER>)),
        Box::new(|| decode_library(black_box(bytes), loaded::read::<BEFORE>)),
    ];
    stream.measure("decode", &BUILDS, ways);
}

fn measure_encode_builds(stream: &Stream) {
    let mut outs: [Vec<u8>; 2] = stream.outputs();
    let [after, before] = &mut outs;
    let ways: Ways<2> = [
        Box::new(|| encode_library(black_box(stream), black_box(after), loaded::write::<AFTER>)),
        Box::new(|| encode_library(black_box(stream), black_box(before), loaded::write::<BEFORE>)),
    ];
    stream.measure("encode", &BUILDS, ways);
    stream.hold(&outs);
}

/// Each stream, read and written.
fn measure_streams(decode: fn(&Stream), encode: fn(&Stream)) {
    for stream in [Stream::can(), Stream::mixed()] {
        println!("{} operations, {} bytes", stream.operations.len(), stream.bytes.len());
        decode(&stream);
        encode(&stream);
    }
}

fn measure_ways() {
    println!(
        "medians of {SAMPLES} samples; ratio: library throughput / that of the row (min..max)"
    );
    measure_streams(measure_decode, measure_encode);
    bus::measure_all();
}

fn measure_builds(before: &str, after: &str) -> Result<(), String> {
    loaded::load(BEFORE, before)?;
    loaded::load(AFTER, after)?;
    println!("medians of {SAMPLES} samples; ratio: throughput after / that of the row (min..max)");
    measure_streams(measure_decode_builds, measure_encode_builds);
    bus::measure_builds();
    Ok(())
}

fn main() -> ExitCode {
    let arguments: Vec<String> = env::args().skip(1).collect();
    match &arguments[..] {
        [] => measure_ways(),
        [before, after] => {
            if let Err(error) = measure_builds(before, after) {
                eprintln!("{error}");
                return ExitCode::FAILURE;
            }
        }
        _ => {
            eprintln!("usage: bench [BEFORE.so AFTER.so]");
            return ExitCode::from(2);
        }
    }
    ExitCode::SUCCESS
}
