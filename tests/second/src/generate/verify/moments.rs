//! A ring that goes on, beside its recordings of the moment before and the moment after: events more, overwritten, dropped,
//! carried over.

use super::beside::{lay, Beside};
use crate::generate::pen::Pen;

const EMISSIONS: usize = 22;

pub fn write(pen: &mut Pen) {
    for (turn, capacity) in [256, 512, 256].into_iter().enumerate() {
        life(pen, 5 * turn, capacity);
    }
    carried_over(pen, 512, 256);
    carried_over(pen, 256, 512);
}

/// The ring as it was before each emission is kept in a third buffer.
fn life(pen: &mut Pen, turn: usize, capacity: u64) {
    let now = Beside::of_turn(turn);
    let before = Beside { ring: now.third(), ..now };
    pen.fresh(now.ring, capacity, 0x0A0B + turn as u64);
    pen.writer(now.ring, 0, 0, 0);
    let own = now.own(pen);
    now.ask(pen, &own);
    for _ in 0..EMISSIONS {
        let as_it_was = pen.machine.buffers[now.ring].clone();
        lay(pen, before.ring, &as_it_was);
        let payload = pen.random.pick(&[0, 1, 7, 20, 50, capacity / 2 - 32, capacity / 2 - 31]);
        pen.emit(now.ring, now.ring, payload);
        now.verify(pen);
        let own = now.own(pen);
        now.ask(pen, &own);
        before.verify(pen);
    }
}

/// By swaps: the frozen ring keeps its recording, and the new one has the same if all events were carried over.
fn carried_over(pen: &mut Pen, from: u64, to: u64) {
    let (frozen, new) = (Beside { ring: 2, recording: 0 }, Beside { ring: 1, recording: 0 });
    for payloads in [&[][..], &[3, 40], &[90, 60, 95], &[97, 1, 97, 96, 97], &[11, 70, 30, 55, 21, 80]] {
        pen.fresh(2, from, 0x7F01);
        pen.writer(0, 0, 0, 0);
        for payload in payloads {
            pen.emit(2, 0, *payload);
        }
        let own = frozen.own(pen);
        frozen.ask(pen, &own);
        pen.say(format!("size 1 {}", 8192 + to));
        pen.say("swap 2 1 0");
        frozen.verify(pen);
        new.verify(pen);
        let own = new.own(pen);
        new.ask(pen, &own);
        frozen.verify(pen);
    }
}
