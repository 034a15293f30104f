//! Two rings and a recording of each, in every arrangement of the four buffers, with every line that can be said of them. Most of
//! these lines name a recording as the ring, or another ring as the recording.

use super::beside::{lay, Beside};
use super::rings::smallest;
use crate::generate::pen::Pen;

pub fn write(pen: &mut Pen) {
    let sketches = smallest();
    for (turn, arrangement) in arrangements().into_iter().enumerate() {
        let [first, second, of_first, of_second] = arrangement;
        for (step, (ring, recording)) in [(first, of_first), (second, of_second)].into_iter().enumerate() {
            let sketch = &sketches[(turn + 3 * step) % sketches.len()];
            let own = Beside { ring, recording }.drawn(pen, sketch);
            lay(pen, recording, &own);
        }
        every_line(pen);
    }
}

fn arrangements() -> Vec<[usize; 4]> {
    let all = (0..256).map(|number| [number / 64, number / 16 % 4, number / 4 % 4, number % 4]);
    all.filter(|buffers| (0..4).all(|buffer| buffers.contains(&buffer))).collect()
}

fn every_line(pen: &mut Pen) {
    for turn in 0..12 {
        Beside::of_turn(turn).verify(pen);
    }
}
