//! Several refusals at once: the one asked first must be given.

use crate::generate::calls::{set_readers, Calls};
use crate::generate::pen::Pen;
use crate::generate::random::Random;
use crate::generate::sketch::Sketch;
use crate::ring::HIGHEST_POSITION;

/// The conditions that hold in one case, by the paper's numbers; `drop` is the payload that is too large.
struct Faults {
    numbers: Vec<u8>,
    drop: bool,
}

impl Faults {
    fn some(random: &mut Random) -> Faults {
        let (early, late) = ([1, 2, 3, 4, 5, 6], [7, 8, 9, 10, 11, 13, 14, 15, 16]);
        let mut numbers = Vec::new();
        if random.one_in(3) {
            numbers.push(random.pick(&early));
            numbers.push(random.pick(&early));
        }
        for _ in 0..2 + random.below(4) {
            numbers.push(random.pick(&late));
        }
        Faults { numbers, drop: random.one_in(6) }
    }

    fn has(&self, number: u8) -> bool {
        self.numbers.contains(&number)
    }
}

pub fn write(pen: &mut Pen) {
    for _ in 0..140 {
        let faults = Faults::some(&mut pen.random);
        one_case(pen, &faults);
    }
}

fn one_case(pen: &mut Pen, faults: &Faults) {
    let sizes = [80, 80, 96];
    let tail_pos = if faults.has(9) { HIGHEST_POSITION - 256 } else { 256 * pen.random.below(9) + 11 };
    let generation = if faults.has(15) { u64::MAX } else { 6 };
    let sketch = Sketch { generation, ..Sketch::new(256, tail_pos, &sizes) };
    let length = if faults.has(1) { 8447 } else { 8448 + u64::from(faults.has(5)) };
    sketch.draw_in(pen, 0, length);
    pen.say(format!("size 1 {}", if faults.has(16) { 8447 } else { 8448 }));
    harm_page(pen, faults);
    if faults.has(10) {
        let index = pen.random.below(3) as usize;
        sketch.put_at(pen, 0, sketch.start(index) + 4, &[33]);
    }
    records(pen, faults, &sketch);
    let payload = if faults.drop { 97 } else { pen.random.pick(&[0, 40, 96]) };
    let lent = if faults.has(14) { 40 } else { 40_960 };
    Calls { payload, lent, ..Calls::default() }.every(pen);
}

fn harm_page(pen: &mut Pen, faults: &Faults) {
    if faults.has(2) {
        pen.put(0, 7, b"g");
    }
    if faults.has(3) {
        pen.put(0, 8, &[2]);
    }
    if faults.has(4) {
        let (at, byte) = pen.random.pick(&[(17, 3), (24, 1), (14, 1), (40, 1), (63, 1), (80, 1), (127, 1), (132, 1), (191, 1)]);
        pen.put(0, at, &[byte]);
    }
    if faults.has(6) {
        let (at, value) = pen.random.pick(&[(64, 0), (72, 0), (64, HIGHEST_POSITION + 1)]);
        pen.put_word(0, at, value);
    }
}

fn records(pen: &mut Pen, faults: &Faults, sketch: &Sketch) {
    let last = if faults.has(8) { u64::MAX } else { 30 };
    let kept = if faults.has(11) { pen.random.below(2) } else { 3 };
    let dropped = 10;
    let overwritten = last - dropped - kept;
    if faults.has(7) {
        pen.writer(0, last, dropped, (last - dropped).saturating_add(1));
    } else {
        pen.writer(0, last, dropped, overwritten);
    }
    let of_reader = if faults.has(15) { sketch.generation } else { 5 };
    let index = pen.random.below(3) as usize;
    match (faults.has(13), pen.random.one_in(2)) {
        (true, true) => set_readers(pen, sketch.start(index), 1, 2, of_reader),
        (true, false) => set_readers(pen, sketch.write_pos() + 1, 1, 1, of_reader),
        (false, _) => set_readers(pen, sketch.start(index), index as u64, 0, of_reader),
    }
}
