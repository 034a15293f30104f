//! Damaged rings: bytes of the page and of events altered, lengths that don't fit.

use super::calls::{set_readers, Calls};
use super::pen::Pen;
use super::sketch::Sketch;

pub fn write(pen: &mut Pen) {
    pen.fresh(1, 512, 9);
    every_page_byte(pen);
    unlooked_bytes(pen);
    headers_across_the_end(pen);
    event_sizes(pen);
    header_sizes(pen);
    cpu_ids(pen);
    spare_bytes(pen);
    free_bytes(pen);
    sequences(pen);
    lengths(pen);
    for _ in 0..80 {
        at_random(pen);
    }
}

/// Drawn into buffer 0, with a writer's record and readers that agree.
fn set_up(pen: &mut Pen, sketch: &Sketch) {
    sketch.draw(pen, 0);
    pen.writer(0, sketch.events.len() as u64 + 7, 3, 4);
    set_readers(pen, sketch.tail_pos, 0, 0, sketch.generation - 1);
}

fn every_page_byte(pen: &mut Pen) {
    let sketch = Sketch { generation: 5, ..Sketch::new(256, 700, &[60, 80, 90]) };
    set_up(pen, &sketch);
    for at in 0..192 {
        let as_it_was = pen.machine.buffers[0][at];
        let bit = 1 << pen.random.below(8);
        pen.put(0, at, &[as_it_was ^ bit]);
        let calls = Calls::default();
        calls.one(pen, 0);
        let mut changed = calls.one(pen, 1 + at % 5);
        changed |= calls.one(pen, 1 + (at + 2) % 5);
        if changed {
            pen.sum(0);
            set_up(pen, &sketch);
        } else {
            pen.put(0, at, &[as_it_was]);
        }
    }
    pen.sum(0);
}

fn unlooked_bytes(pen: &mut Pen) {
    for at in [192, 255, 1000, 4088, 4097, 5000, 8184] {
        set_up(pen, &Sketch { generation: 2, ..Sketch::new(512, 1000, &[100, 200, 212]) });
        let noise = pen.random.bytes(7);
        pen.put(0, at, &noise);
        Calls::default().every(pen);
    }
}

/// The header of the second event begins 0 to 32 bytes before the end of the data region.
fn headers_across_the_end(pen: &mut Pen) {
    for before_end in 0..=32 {
        let sketch = Sketch { generation: 3, ..Sketch::new(256, 1280 + 106 - before_end, &[150, 64, 42]) };
        set_up(pen, &sketch);
        Calls { payload: 96, ..Calls::default() }.every(pen);
        set_up(pen, &sketch);
        let at = sketch.start(1) + pen.random.pick(&[0, 1, 2, 3, 4, 5, 6, 7, 8, 15, 29, 30, 31]);
        let noise = pen.random.bytes(1);
        sketch.put_at(pen, 0, at, &noise);
        let read_pos = sketch.start(1);
        set_readers(pen, read_pos, 1, 1, 2);
        Calls { payload: 96, ..Calls::default() }.every(pen);
    }
}

fn event_sizes(pen: &mut Pen) {
    let sketch = Sketch { generation: 2, ..Sketch::new(256, 256 + 90, &[70, 80, 100]) };
    for index in 0..3 {
        event_sizes_of(pen, &sketch, index);
    }
}

fn event_sizes_of(pen: &mut Pen, sketch: &Sketch, index: usize) {
    let room = (sketch.write_pos() - sketch.start(index)) as u32;
    let own = sketch.events[index].0 as u32;
    for size in [0, 1, 31, 32, 33, own - 1, own + 1, room - 1, room, room + 1, 288, 65_536 + own, 1 << 31, u32::MAX] {
        damaged_event(pen, sketch, index, 0, &size.to_le_bytes());
    }
}

fn three_events() -> Sketch {
    Sketch { generation: 2, cpu_id: 0x0102, ..Sketch::new(256, 256 * 9 + 40, &[70, 80, 100]) }
}

fn header_sizes(pen: &mut Pen) {
    for header_size in [0, 31, 33, 64, 288, 8192, u16::MAX] {
        let index = pen.random.below(3) as usize;
        damaged_event(pen, &three_events(), index, 4, &header_size.to_le_bytes());
    }
}

fn cpu_ids(pen: &mut Pen) {
    for cpu_id in [0, 0x0101, 0x0103, 0x0202, 0x0201, 0x8102, u16::MAX] {
        let index = pen.random.below(3) as usize;
        damaged_event(pen, &three_events(), index, 6, &cpu_id.to_le_bytes());
    }
}

fn spare_bytes(pen: &mut Pen) {
    for (offset, value) in [(29, 1), (29, 128), (29, 255), (30, 1), (30, 128), (30, 255), (31, 1), (31, 128), (31, 255)] {
        let index = pen.random.below(2) as usize;
        damaged_event(pen, &three_events(), index, offset, &[value]);
    }
}

/// Timestamp, type, class and payload may hold anything.
fn free_bytes(pen: &mut Pen) {
    for free in [16, 23, 24, 27, 28, 32] {
        let noise = pen.random.bytes(1);
        damaged_event(pen, &three_events(), 0, free, &noise);
    }
}

/// One field of one event altered; the reader stands at that event.
fn damaged_event(pen: &mut Pen, sketch: &Sketch, index: usize, offset: u64, bytes: &[u8]) {
    set_up(pen, sketch);
    let at = sketch.start(index);
    sketch.put_at(pen, 0, at + offset, bytes);
    set_readers(pen, at, 0, 0, 1);
    let payload = pen.random.pick(&[0, 20, 60, 96]);
    Calls { payload, ..Calls::default() }.every(pen);
}

fn sequences(pen: &mut Pen) {
    const MAX: u64 = u64::MAX;
    let rows = [
        [0, 1, 2],
        [1, 1, 2],
        [2, 1, 3],
        [1, 3, 2],
        [1, 2, 2],
        [5, 6, 9],
        [9, 8, 7],
        [MAX - 2, MAX - 1, MAX],
        [MAX - 1, MAX, MAX],
        [MAX, 0, 1],
        [1, 1 << 63, MAX],
        [255, 256, 257],
        [256, 255, 257],
        [1 << 32, 1, 2],
        [3, 1 << 32, 4],
    ];
    for row in rows {
        sequences_before(pen, row, 0);
        sequences_before(pen, row, row[1].saturating_sub(1));
    }
}

fn sequences_before(pen: &mut Pen, row: [u64; 3], last: u64) {
    let events = vec![(50, row[0]), (60, row[1]), (70, row[2])];
    let sketch = Sketch { generation: 4, events, ..Sketch::new(256, 600, &[]) };
    set_up(pen, &sketch);
    let handed = pen.random.below(last.max(1));
    set_readers(pen, sketch.tail_pos, last, handed, 3);
    Calls { payload: 90, ..Calls::default() }.every(pen);
}

const LENGTHS: [u64; 22] = [
    0, 1, 7, 8, 64, 191, 192, 4097, 8191, 8192, 8193, 8447, 8448, 8449, 8703, 8704, 8705, 12_287, 12_288, 12_289, 40_959, 40_960,
];

fn lengths(pen: &mut Pen) {
    for length in LENGTHS {
        ring_of_length(pen, length, 256);
        ring_of_length(pen, length, 512);
        buffer_of_length(pen, length);
    }
}

fn ring_of_length(pen: &mut Pen, length: u64, capacity: u64) {
    Sketch::new(capacity, 0, &[40]).draw_in(pen, 0, length);
    pen.writer(0, 1, 0, 0);
    set_readers(pen, 0, 0, 0, 0);
    Calls::default().every(pen);
}

/// To be made a ring, by a swap and by creation over what the swap left.
fn buffer_of_length(pen: &mut Pen, length: u64) {
    pen.fresh(2, 256, 1);
    pen.writer(1, 0, 0, 0);
    pen.emit(2, 1, 5);
    pen.say(format!("size 3 {length}"));
    pen.put(3, 4096, &[1]);
    pen.say("swap 2 3 1");
    pen.say("sum 3");
    pen.put(3, 4096, &[1]);
    pen.put(3, 128, &[9; 64]);
    pen.say("create 3 65535");
    pen.say("sum 3");
}

fn at_random(pen: &mut Pen) {
    let capacity = pen.random.pick(&[256, 256, 256, 512, 1024]);
    let tail_pos = pen.random.below(5000);
    let sketch = Sketch { generation: 1 + pen.random.below(3), ..Sketch::new(capacity, tail_pos, &some_sizes(pen, capacity)) };
    set_up(pen, &sketch);
    for _ in 0..=pen.random.below(3) {
        one_harm(pen, &sketch);
    }
    let index = pen.random.below(sketch.events.len() as u64) as usize;
    let read_pos = sketch.start(index) + pen.random.pick(&[0, 0, 0, 0, 1, 5]);
    let last = pen.random.below(4);
    let of_reader = pen.random.below(3);
    set_readers(pen, read_pos, last, last / 2, of_reader);
    let payload = pen.random.below(capacity / 2 - 30);
    let lent = pen.random.pick(&[40_960, 40_960, 40_960, 64, 33, 31]);
    Calls { payload, lent, ..Calls::default() }.every(pen);
}

fn some_sizes(pen: &mut Pen, capacity: u64) -> Vec<u64> {
    let mut sizes = Vec::new();
    let mut left = capacity;
    while left >= 32 && (sizes.is_empty() || !pen.random.one_in(9)) {
        let size = 32 + pen.random.below((left - 31).min(90));
        sizes.push(size);
        left -= size;
    }
    sizes
}

fn one_harm(pen: &mut Pen, sketch: &Sketch) {
    let count = 1 + pen.random.below(2);
    let noise = pen.random.bytes(count);
    let index = pen.random.below(sketch.events.len() as u64) as usize;
    match pen.random.below(10) {
        0 => {
            let at = pen.random.below(191) as usize;
            pen.put(0, at, &noise);
        }
        1 => pen.put(0, 12, &noise),
        2 => pen.put_word(0, 72, sketch.tail_pos + 1),
        3 => pen.put_word(0, 64, sketch.write_pos() - 1),
        4 => sketch.put_at(pen, 0, sketch.tail_pos + sketch.live() / 2, &noise),
        _ => {
            let offset = pen.random.below(32);
            sketch.put_at(pen, 0, sketch.start(index) + offset, &noise);
        }
    }
}
