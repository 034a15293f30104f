//! Wakes: flags and counters at emissions and swaps, and at calls that tell nobody.

use crate::generate::pen::Pen;
use crate::generate::sketch::Sketch;

/// One ring through all counters, and swapped to another and back, with each of a few flags.
pub fn on_one_ring(pen: &mut Pen) {
    pen.fresh(0, 256, 7);
    pen.writer(0, 0, 0, 0);
    for flag in [0u8, 1, 2, 129, 255] {
        counters(pen, flag);
        pen.say("swap 0 1 0");
        pen.say("get 0 128 4");
        pen.say("get 1 4096 1");
        pen.sum(0);
        pen.say("swap 1 0 0");
    }
}

fn counters(pen: &mut Pen, flag: u8) {
    for counter in [0u32, 1, 255, 256, 65_535, 0xFF_FFFF, 0x7FFF_FFFF, 0x8000_0000, u32::MAX - 1, u32::MAX] {
        pen.put(0, 128, &counter.to_le_bytes());
        pen.put(0, 4096, &[flag]);
        let payload = pen.random.pick(&[0, 10, 60, 97]);
        pen.emit(0, 0, payload);
        pen.say("get 0 128 8");
    }
}

/// 0, which asks for nothing; 1, which consumers are told to write; the next; each side of the top bit; the highest two.
const FLAGS: [u8; 7] = [0, 1, 2, 127, 128, 254, 255];

/// All but the highest: bytes that are full or about to be, and both sides of the top bit.
const COUNTERS: [u32; 9] = [0, 254, 255, 256, 65_535, 0xFF_FFFF, 0x7FFF_FFFF, 0x8000_0000, u32::MAX - 1];

/// Capacities that a ring is swapped between, and how it stands at first: full, but for one.
const COURSES: [([u64; 2], u64, &[u64]); 5] = [
    ([256, 256], 1000, &[64, 64, 64, 64]),
    ([512, 256], 400, &[156, 100, 216, 40]),
    ([256, 512], (1 << 32) - 90, &[90, 166]),
    ([1024, 256], 0, &[]),
    ([512, 2048], (1 << 62) - 1000, &[256, 33, 32, 191]),
];

/// With each flag 50 accepted events, 50 dropped ones and 50 swaps, ten of each with the highest counter; then refusals.
pub fn with_each_flag(pen: &mut Pen) {
    for flag in FLAGS {
        for (index, (capacities, tail_pos, sizes)) in COURSES.iter().enumerate() {
            let sketch = Sketch { generation: 250, ..Sketch::new(capacities[0], *tail_pos, sizes) };
            begin(pen, &sketch, capacities[1]);
            for turn in 0..10 {
                round(pen, flag, index * 10 + turn, turn % 2);
            }
        }
        refusals(pen, flag);
    }
}

/// The new buffer isn't empty: a swap that leaves flag or counter standing is seen. After the first round it is an old ring.
fn begin(pen: &mut Pen, sketch: &Sketch, to_capacity: u64) {
    sketch.draw(pen, 0);
    pen.writer(0, sketch.events.len() as u64 + 7, 3, 4);
    pen.say(format!("size 1 {}", 8192 + to_capacity));
    pen.put(1, 128, &[9; 4]);
    raise(pen, 1, 1);
}

/// One accepted event, one dropped, and the swap to the other buffer.
fn round(pen: &mut Pen, flag: u8, turn: usize, buffer: usize) {
    let capacity = pen.machine.buffers[buffer].len() as u64 - 8192;
    raise(pen, buffer, flag);
    set_counter(pen, buffer, turn);
    let payload = pen.random.pick(&[0, 13, capacity / 4, capacity / 2 - 32]);
    pen.emit(buffer, 0, payload);
    look(pen, buffer);
    set_counter(pen, buffer, turn + 1);
    let too_large = pen.random.pick(&[capacity / 2 - 31, capacity / 2, capacity, 40_960]);
    pen.say(format!("emitlen {buffer} 0 {turn} 1 2 {too_large}"));
    look(pen, buffer);
    set_counter(pen, buffer, turn + 2);
    swap(pen, buffer, 1 - buffer);
}

fn swap(pen: &mut Pen, buffer: usize, to: usize) {
    pen.say(format!("swap {buffer} {to} 0"));
    for ring in [buffer, to] {
        look(pen, ring);
        pen.sum(ring);
    }
}

/// The flag, beside bytes that nobody looks at.
fn raise(pen: &mut Pen, buffer: usize, flag: u8) {
    let beside = pen.random.pick(&[0, 1, 255]);
    pen.put(buffer, 4095, &[beside, flag, beside]);
}

/// The highest at every fifth turn, the others by turns in between.
fn set_counter(pen: &mut Pen, buffer: usize, turn: usize) {
    let counter = if turn % 5 == 0 { u32::MAX } else { COUNTERS[turn % COUNTERS.len()] };
    pen.put(buffer, 128, &counter.to_le_bytes());
}

/// Counter and flag, each with its neighbours.
fn look(pen: &mut Pen, buffer: usize) {
    pen.say(format!("get {buffer} 128 8"));
    pen.say(format!("get {buffer} 4095 3"));
}

/// Nobody is told of a refused call: the new buffer is no ring (16), the counts disagree (11), an event is damaged (10).
fn refusals(pen: &mut Pen, flag: u8) {
    let sketch = Sketch::new(256, 500, &[64, 100, 92]);
    sketch.draw(pen, 0);
    raise(pen, 0, flag);
    set_counter(pen, 0, 0);
    pen.writer(0, 10, 3, 4);
    pen.say("size 1 8447");
    pen.say("swap 0 1 0");
    pen.say("size 1 8448");
    pen.writer(0, 8, 3, 4);
    emit_and_swap(pen);
    pen.writer(0, 10, 3, 4);
    sketch.put_at(pen, 0, sketch.start(1) + 4, &[33]);
    emit_and_swap(pen);
    look(pen, 0);
    pen.sum(0);
    pen.sum(1);
}

/// The emission would pass two events.
fn emit_and_swap(pen: &mut Pen) {
    pen.emit(0, 0, 96);
    pen.say("swap 0 1 0");
}
