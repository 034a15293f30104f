//! Each capacity that a script can hold: emptied, filled, passed, with events over the data's end.

use super::beside::Beside;
use super::images::place;
use crate::generate::pen::Pen;

const MOMENTS: usize = 18;

/// The largest first, with a line of `record` that leaves its bytes in the output buffer.
pub fn write(pen: &mut Pen) {
    for shift in (8..=15).rev() {
        let beside = Beside::of_turn(shift);
        pen.fresh(beside.ring, 1 << shift, 0x0300 + shift as u64);
        pen.writer(beside.ring, 0, 0, 0);
        for moment in 0..MOMENTS {
            one_moment(pen, beside, 1 << shift, moment);
        }
        one_byte_fewer_and_more(pen, beside);
        if shift == 15 {
            pen.record(beside.ring, 0, 2000);
        }
    }
}

/// Some bytes of the long payload are put by hand, since an emission of many zeros takes little room in a script.
fn one_moment(pen: &mut Pen, beside: Beside, capacity: u64, moment: usize) {
    let payload = [capacity / 2 - 32, capacity / 4 + 3, 17, capacity / 2 - 45, capacity / 3][moment % 5];
    let start = pen.write_pos(beside.ring);
    pen.emit_zeros(beside.ring, beside.ring, payload);
    for _ in 0..3 {
        let at = place(&pen.machine.buffers[beside.ring], start + 32 + pen.random.below(payload));
        let noise = pen.random.bytes(1);
        pen.put(beside.ring, at, &noise);
    }
    three_times(pen, beside, capacity);
}

/// The recording as it is, and altered in the first stretch, in the second or anywhere, and behind the events.
fn three_times(pen: &mut Pen, beside: Beside, capacity: u64) {
    let own = beside.own(pen);
    let data_end = 8 + capacity - pen.tail_pos(beside.ring) % capacity;
    let closing = own.len() as u64 - 24;
    let in_first = 8 + pen.random.below(data_end.min(closing) - 8);
    let in_second = if data_end < closing { data_end + pen.random.below(closing - data_end) } else { pen.random.below(closing) };
    let in_closing = closing + pen.random.below(24);
    for place in [in_first, in_second, in_closing] {
        beside.ask(pen, &own);
        let change = pen.random.pick(&[1, 0x10, 0x80, 0xFF]);
        beside.ask_with_byte(pen, &own, place as usize, change);
    }
}

fn one_byte_fewer_and_more(pen: &mut Pen, beside: Beside) {
    let own = beside.own(pen);
    beside.ask(pen, &own[..own.len() - 1]);
    beside.ask(pen, &[&own[..], &[0]].concat());
}
