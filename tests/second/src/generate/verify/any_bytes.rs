//! Any bytes on both sides: none, noise, a ring in the place of a recording and a recording in the place of a ring.

use super::beside::{lay, Beside};
use super::rings::{ring, smallest};
use crate::generate::pen::Pen;

const ROUNDS: usize = 12;

pub fn write(pen: &mut Pen) {
    for turn in 0..ROUNDS {
        let beside = Beside::of_turn(turn);
        pen.say(format!("size {} 0", beside.ring));
        beside.ask(pen, &[]);
        let noise = pen.random.bytes(1 + turn as u64 * 7);
        lay(pen, beside.ring, &noise);
        beside.verify(pen);
        sound_ring(pen, beside, turn);
    }
    a_recording_in_a_payload(pen);
}

fn sound_ring(pen: &mut Pen, beside: Beside, turn: usize) {
    let sketches = smallest();
    let own = beside.drawn(pen, &sketches[turn % sketches.len()]);
    let drawn = pen.machine.buffers[beside.ring].clone();
    for length in [1, 8, own.len() as u64] {
        let noise = pen.random.bytes(length);
        beside.ask(pen, &noise);
    }
    beside.ask(pen, &drawn);
    beside.ask(pen, &drawn[8192..]);
    beside.ask(pen, &vec![0; own.len()]);
    beside.ask(pen, &own);
}

/// An event whose payload is the recording of another ring, which ends with a closing of its own.
fn a_recording_in_a_payload(pen: &mut Pen) {
    let (inner, outer) = (Beside { ring: 2, recording: 3 }, Beside { ring: 0, recording: 3 });
    let payload = inner.drawn(pen, &ring(256, 9, 40, &[(36, 1), (33, 2)]));
    let size = 32 + payload.len() as u64;
    let sketch = ring(256, 9, 256 * 2 - 60, &[(size, 1)]);
    sketch.draw(pen, 0);
    sketch.put_at(pen, 0, sketch.tail_pos + 32, &payload);
    let own = outer.own(pen);
    for recording in [&own[..], &own[..40 + payload.len()], &own[40..], &payload] {
        outer.ask(pen, recording);
        inner.verify(pen);
    }
}
