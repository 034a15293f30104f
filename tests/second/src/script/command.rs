//! One line as a command; `None` for a line that is no command or has a wrong field.

use super::fields::{at_most, bytes, number};
use super::LONGEST_BUFFER;
use crate::ring::{Reader, Slip, Writer};

pub enum Command {
    Size { buffer: usize, length: u64 },
    Put { buffer: usize, at: u64, bytes: Vec<u8> },
    Get { buffer: usize, at: u64, length: u64 },
    Sum { buffer: usize },
    Outsum,
    Writer { writer: usize, record: Writer },
    Reader { reader: usize, record: Reader },
    Slip { slip: usize, numbers: Slip },
    Create { buffer: usize, cpu_id: u16 },
    Emit { buffer: usize, writer: usize, timestamp: u64, event_type: u32, origin_class: u8, payload: Vec<u8> },
    Inspect { buffer: usize },
    Attach { buffer: usize, reader: usize },
    Read { buffer: usize, reader: usize, lent: usize },
    Copy { buffer: usize, reader: usize, slip: usize, lent: usize },
    Confirm { buffer: usize, reader: usize, slip: usize },
    Follow { buffer: usize, reader: usize },
    Swap { from: usize, to: usize, writer: usize },
    Record { buffer: usize, placed: u64, lent: usize },
    Verify { buffer: usize, recording: usize },
    Serial,
    Feed { piece: Vec<u8> },
    End,
}

pub fn parse(line: &[u8]) -> Option<Command> {
    let fields: Vec<&[u8]> = line.split(|byte| *byte == b' ').collect();
    let (word, rest) = fields.split_first()?;
    buffer_command(word, rest)
        .or_else(|| record_command(word, rest))
        .or_else(|| ring_command(word, rest))
        .or_else(|| slip_command(word, rest))
        .or_else(|| serial_command(word, rest))
}

fn buffer_command(word: &[u8], rest: &[&[u8]]) -> Option<Command> {
    Some(match (word, rest) {
        (b"size", [b, n]) => Command::Size { buffer: index(b)?, length: number(n)? },
        (b"put", [b, at, hex]) => Command::Put { buffer: index(b)?, at: number(at)?, bytes: bytes(hex)? },
        (b"get", [b, at, n]) => Command::Get { buffer: index(b)?, at: number(at)?, length: number(n)? },
        (b"sum", [b]) => Command::Sum { buffer: index(b)? },
        (b"outsum", []) => Command::Outsum,
        _ => return None,
    })
}

fn record_command(word: &[u8], rest: &[&[u8]]) -> Option<Command> {
    Some(match (word, rest) {
        (b"writer", [w, last, dropped, overwritten]) => Command::Writer {
            writer: index(w)?,
            record: Writer { last: number(last)?, dropped: number(dropped)?, overwritten: number(overwritten)? },
        },
        (b"reader", [r, pos, last, handed, generation]) => Command::Reader {
            reader: index(r)?,
            record: Reader {
                read_pos: number(pos)?,
                last: number(last)?,
                handed: number(handed)?,
                generation: number(generation)?,
            },
        },
        (b"slip", [s, pos, size, sequence, tail]) => Command::Slip {
            slip: index(s)?,
            numbers: Slip { position: number(pos)?, size: number(size)?, sequence: number(sequence)?, tail_seen: number(tail)? },
        },
        _ => return None,
    })
}

fn ring_command(word: &[u8], rest: &[&[u8]]) -> Option<Command> {
    Some(match (word, rest) {
        (b"create", [b, cpu]) => Command::Create { buffer: index(b)?, cpu_id: at_most(cpu, 65_535)? as u16 },
        (b"emit", [call @ .., hex]) => emission(call, bytes(hex)?)?,
        (b"emitlen", [call @ .., n]) => emission(call, vec![0; length(n)?])?,
        (b"inspect", [b]) => Command::Inspect { buffer: index(b)? },
        (b"attach", [b, r]) => Command::Attach { buffer: index(b)?, reader: index(r)? },
        (b"read", [b, r, n]) => Command::Read { buffer: index(b)?, reader: index(r)?, lent: length(n)? },
        (b"follow", [b, r]) => Command::Follow { buffer: index(b)?, reader: index(r)? },
        (b"swap", [b, c, w]) if b != c => Command::Swap { from: index(b)?, to: index(c)?, writer: index(w)? },
        (b"record", [b, placed, n]) => Command::Record { buffer: index(b)?, placed: number(placed)?, lent: length(n)? },
        (b"verify", [b, c]) if b != c => Command::Verify { buffer: index(b)?, recording: index(c)? },
        _ => return None,
    })
}

fn slip_command(word: &[u8], rest: &[&[u8]]) -> Option<Command> {
    Some(match (word, rest) {
        (b"copy", [b, r, s, n]) => Command::Copy { buffer: index(b)?, reader: index(r)?, slip: index(s)?, lent: length(n)? },
        (b"confirm", [b, r, s]) => Command::Confirm { buffer: index(b)?, reader: index(r)?, slip: index(s)? },
        _ => return None,
    })
}

fn serial_command(word: &[u8], rest: &[&[u8]]) -> Option<Command> {
    Some(match (word, rest) {
        (b"serial", []) => Command::Serial,
        (b"feed", [hex]) => Command::Feed { piece: bytes(hex)? },
        (b"end", []) => Command::End,
        _ => return None,
    })
}

fn emission(call: &[&[u8]], payload: Vec<u8>) -> Option<Command> {
    let [b, w, time, event_type, class] = call else { return None };
    Some(Command::Emit {
        buffer: index(b)?,
        writer: index(w)?,
        timestamp: number(time)?,
        event_type: at_most(event_type, u64::from(u32::MAX))? as u32,
        origin_class: at_most(class, 255)? as u8,
        payload,
    })
}

/// Buffers, writer's records, reader's records and slips are numbered 0 to 3.
fn index(field: &[u8]) -> Option<usize> {
    at_most(field, 3).map(|value| value as usize)
}

fn length(field: &[u8]) -> Option<usize> {
    at_most(field, LONGEST_BUFFER as u64).map(|value| value as usize)
}
