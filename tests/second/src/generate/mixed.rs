//! Any line after any other: calls in no order, fields from the edges, and lines that are no command.

use super::pen::Pen;
use super::sketch::Sketch;

pub fn write(pen: &mut Pen) {
    wrong_lines(pen);
    for _ in 0..3000 {
        one_step(pen);
    }
    for buffer in 0..4 {
        pen.sum(buffer);
    }
    // A rest that no newline ends.
    pen.script.extend_from_slice(b"sum 0");
}

fn one_step(pen: &mut Pen) {
    let line = any_line(pen);
    if pen.random.one_in(12) {
        let spoilt = spoil(pen, line.into_bytes());
        pen.say(spoilt);
    } else {
        pen.say(line);
    }
    if pen.random.one_in(30) {
        new_ring(pen);
    }
}

/// Each decision on fields and lines at least once, on rings that would show it if such a line were obeyed.
fn wrong_lines(pen: &mut Pen) {
    for buffer in 0..4 {
        pen.fresh(buffer, 256, buffer as u64);
        pen.emit(buffer, buffer, 9);
    }
    for line in WRONG {
        pen.say(line);
    }
    for line in [&b"sum\t0"[..], b"sum 0\r", b"sum 0\0", b"\xFF", b"sum \xB2", b"get 0 0 1\x0B", b"\xC3\xBC"] {
        pen.say(line);
    }
    for digits in [40_960, 40_961] {
        pen.say(format!("put 0 0 {}", "0f".repeat(digits)));
    }
    pen.say(format!("emit 0 0 1 1 1 {}", "a0".repeat(40_961)));
    pen.say(format!("sum {}", "0".repeat(30)));
    pen.say(format!("size 0 {}", "9".repeat(400)));
    for index in 0..4 {
        pen.sum(index);
        pen.emit(index, index, 0);
        pen.read(index, index, 40_960);
    }
}

const WRONG: [&str; 122] = [
    "",
    " ",
    "  ",
    "-",
    "0",
    "Sum 0",
    "SUM 0",
    "sums 0",
    "su 0",
    " sum 0",
    "sum 0 ",
    "sum  0",
    "sum 4",
    "sum -1",
    "sum",
    "sum 0 0",
    "sum 00",
    "sum 01",
    "sum 0x0",
    "sum a",
    "sum -",
    "sum 18446744073709551616",
    "sum 10",
    "outsum ",
    "outsum 0",
    " outsum",
    "outsums",
    "size 0",
    "size 0 1 1",
    "size 4 1",
    "size 0 01",
    "size 0 -",
    "size 0 18446744073709551616",
    "size 0 40961",
    "size 0 18446744073709551615",
    "size 0 99999999999999999999",
    "put 0 0",
    "put 0 0 0",
    "put 0 0 000",
    "put 0 0 0G",
    "put 0 0 FF",
    "put 0 0 fF",
    "put 0 0 ",
    "put 0 0 --",
    "put 0 0 -0",
    "put 0 0 00 00",
    "put 0 8448 00",
    "put 0 8447 0000",
    "put 0 8449 -",
    "put 0 18446744073709551615 0000",
    "put 0 -1 00",
    "put 0  00",
    "get 0 0",
    "get 0 8448 1",
    "get 0 8448 0",
    "get 0 8449 0",
    "get 0 1 18446744073709551615",
    "get 0 18446744073709551615 1",
    "get 0 18446744073709551615 18446744073709551615",
    "get 0 0 1 ",
    "writer 0 0 0",
    "writer 4 0 0 0",
    "writer 0 0 0 18446744073709551616",
    "writer 0 0 0 0 0",
    "writer 0 00 0 0",
    "reader 0 0 0 0",
    "reader 4 0 0 0 0",
    "reader 0 0 0 0 0 0",
    "reader 0 0 0 0 x",
    "create 0 65536",
    "create 0",
    "create 4 0",
    "create 0 3 3",
    "create 0 007",
    "emit 0 0 1 4294967296 1 -",
    "emit 0 0 1 1 256 -",
    "emit 0 0 18446744073709551616 1 1 -",
    "emit 0 0 1 1 1",
    "emit 0 0 1 1 1 - -",
    "emit 4 0 1 1 1 -",
    "emit 0 4 1 1 1 -",
    "emit 0 0 1 1 1 a",
    "emitlen 0 0 1 1 1 40961",
    "emitlen 0 0 1 1 1 -",
    "emitlen 0 0 1 1 1",
    "inspect",
    "inspect 4",
    "inspect 0 0",
    "attach 0",
    "attach 0 4",
    "read 0 0",
    "read 0 0 40961",
    "follow 0 4",
    "swap 0 0 0",
    "swap 0 4 0",
    "swap 0 1 4",
    "slip",
    "slip 0 0 0 0",
    "slip 4 0 0 0 0",
    "slip 0 0 0 0 0 0",
    "slip 0 0 0 0 00",
    "slip 0 18446744073709551616 0 0 0",
    "slip 0 0 18446744073709551616 0 0",
    "slip 0 0 0 0 x",
    "slip  0 0 0 0",
    "slips 0 0 0 0 0",
    "copy 0 0 0",
    "copy 4 0 0 40960",
    "copy 0 4 0 40960",
    "copy 0 0 4 40960",
    "copy 0 0 0 40961",
    "copy 0 0 0 -",
    "copy 0 0 0 40960 0",
    "copy 0 0 0 40960 ",
    "copi 0 0 0 40960",
    "confirm 0 0",
    "confirm 4 0 0",
    "confirm 0 4 0",
    "confirm 0 0 4",
    "confirm 0 0 0 0",
    "confirm 0 0 0 ",
    "Confirm 0 0 0",
];

fn any_line(pen: &mut Pen) -> String {
    let buffer = index(pen);
    let other = index(pen);
    match pen.random.below(76) {
        0..=19 => emission(pen, buffer, other),
        20..=30 => format!("read {buffer} {other} {}", lent(pen)),
        31..=34 => format!("inspect {buffer}"),
        35..=37 => format!("attach {buffer} {other}"),
        38..=40 => format!("follow {buffer} {other}"),
        41..=43 => format!("swap {buffer} {other} {}", index(pen)),
        44..=47 => format!("sum {buffer}"),
        48 => "outsum".to_string(),
        49..=51 => put(pen, buffer),
        52 => format!("get {buffer} {} {}", offset(pen), pen.random.below(40)),
        53..=54 => reader(pen, buffer, other),
        55..=57 => writer(pen, buffer, other),
        58 => format!("create {buffer} {}", pen.random.next() as u16),
        60..=66 => format!("copy {buffer} {other} {} {}", index(pen), lent(pen)),
        67..=73 => format!("confirm {buffer} {other} {}", index(pen)),
        74..=75 => slip(pen, buffer, other),
        _ => format!("size {buffer} {}", pen.random.pick(&[8448, 8448, 8704, 8704, 9216, 12_288, 8447, 8449, 0, 40_960, 40_961])),
    }
}

/// Mostly 0, so that calls meet each other's rings and records.
fn index(pen: &mut Pen) -> u64 {
    pen.random.pick(&[0, 0, 0, 1, 1, 2, 3])
}

fn emission(pen: &mut Pen, buffer: u64, writer: u64) -> String {
    let (time, event_type, class) = (any_number(pen), pen.random.next() as u32, pen.random.next() as u8);
    let call = format!("{buffer} {writer} {time} {event_type} {class}");
    if pen.random.one_in(3) {
        return format!("emitlen {call} {}", pen.random.pick(&[0, 1, 31, 32, 95, 96, 97, 223, 224, 225, 1000]));
    }
    let count = pen.random.below(70);
    format!("emit {call} {}", crate::script::fields::hex(&pen.random.bytes(count)))
}

fn lent(pen: &mut Pen) -> u64 {
    pen.random.pick(&[40_960, 40_960, 40_960, 40_960, 0, 31, 32, 60, 128, 256])
}

fn offset(pen: &mut Pen) -> u64 {
    let data = 8192 + pen.random.below(256);
    pen.random.pick(&[
        0, 7, 8, 12, 14, 16, 24, 32, 40, 64, 72, 80, 128, 132, 191, 192, 4095, 4096, 4097, 8191, data, data, data, 8440, 8448,
    ])
}

fn put(pen: &mut Pen, buffer: u64) -> String {
    let count = pen.random.pick(&[0, 1, 1, 1, 2, 4, 8]);
    let bytes = pen.random.bytes(count);
    let place = pen.random.pick(&[4096, 128, 8200]);
    let at = if pen.random.one_in(3) { offset(pen) } else { place };
    let small = bytes.iter().map(|byte| byte & 1).collect::<Vec<u8>>();
    let chosen = if at == 4096 { small } else { bytes };
    format!("put {buffer} {at} {}", crate::script::fields::hex(&chosen))
}

fn any_number(pen: &mut Pen) -> u64 {
    let number = pen.random.next() >> pen.random.below(64);
    pen.random.pick(&[number, number, 0, 1, u64::MAX, u64::MAX - 1, 1 << 62, 1 << 63])
}

fn reader(pen: &mut Pen, buffer: u64, reader: u64) -> String {
    let buffer = buffer as usize;
    let near = [pen.tail_pos(buffer), pen.write_pos(buffer), pen.write_pos(buffer).wrapping_add(1), any_number(pen)];
    let last = pen.random.pick(&[0, 1, 5, 20, u64::MAX]);
    let handed = pen.random.pick(&[0, last, last, last.wrapping_add(1)]);
    let generation = pen.random.pick(&[0, 1, 2, pen.word_at(buffer, 32), u64::MAX]);
    format!("reader {reader} {} {last} {handed} {generation}", pen.random.pick(&near))
}

/// Near the ring's positions and the record of the reader, or absurd.
fn slip(pen: &mut Pen, buffer: u64, reader: u64) -> String {
    let record = pen.machine.readers[reader as usize];
    let (tail, write) = (pen.tail_pos(buffer as usize), pen.write_pos(buffer as usize));
    let positions = [record.read_pos, tail, tail.wrapping_sub(1), write.wrapping_sub(40), any_number(pen)];
    let position = pen.random.pick(&positions);
    let sizes = [32, 40, 31, write.wrapping_sub(position), write.wrapping_sub(position).wrapping_add(1), any_number(pen)];
    let sequences = [record.last.wrapping_add(1), record.last.wrapping_add(1), record.last, any_number(pen)];
    let tails = [tail, tail.wrapping_sub(1), 0, position, any_number(pen)];
    let (size, sequence, tail_seen) = (pen.random.pick(&sizes), pen.random.pick(&sequences), pen.random.pick(&tails));
    format!("slip {} {position} {size} {sequence} {tail_seen}", index(pen))
}

/// Mostly one that agrees with the ring, so that emission and swap go on.
fn writer(pen: &mut Pen, buffer: u64, writer: u64) -> String {
    let kept = crate::ring::inspect(&pen.machine.buffers[buffer as usize]).map_or(1, |found| found.count);
    let (dropped, overwritten) = (pen.random.below(5), pen.random.below(50));
    let last = kept + dropped + overwritten;
    let absurd = any_number(pen);
    let last = pen.random.pick(&[last, last, last, last + 1, last - 1, absurd]);
    format!("writer {writer} {last} {dropped} {overwritten}")
}

fn new_ring(pen: &mut Pen) {
    let buffer = index(pen) as usize;
    let capacity = pen.random.pick(&[256, 256, 512]);
    let tail_pos = pen.random.pick(&[0, 17, 250, 1 << 32, (1 << 62) - 200, (1 << 62) - 500]);
    let generation = pen.random.pick(&[1, 2, 3, u64::MAX, u64::MAX - 1]);
    Sketch { generation, ..Sketch::new(capacity, tail_pos, &[40, 60, 96]) }.draw(pen, buffer);
    for writer in 0..4 {
        pen.writer(writer, 9, 2, 4);
    }
}

/// One byte taken out, put in, doubled or altered.
fn spoil(pen: &mut Pen, mut line: Vec<u8>) -> Vec<u8> {
    let at = pen.random.below(line.len() as u64) as usize;
    let letter = pen.random.pick(b" 0123456789abcdefgF-x.");
    match pen.random.below(5) {
        0 => drop(line.remove(at)),
        1 => line.insert(at, letter),
        2 => line.insert(at, line[at]),
        3 => line[at] = letter,
        _ => line.truncate(at),
    }
    line
}
