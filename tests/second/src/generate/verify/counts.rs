//! Closing counts that aren't the ring's: wrong ones behind the ring's own events, and right ones behind others.

use super::beside::Beside;
use super::parts::Parts;
use super::rings::small;
use crate::generate::pen::Pen;
use crate::generate::sketch::header;

const MAX: u64 = u64::MAX;

pub fn write(pen: &mut Pen) {
    for (turn, sketch) in small().iter().enumerate() {
        let beside = Beside::of_turn(turn + 4);
        let own = Parts::of(&beside.drawn(pen, sketch));
        wrong_counts(pen, beside, &own);
        fewer_events(pen, beside, &own);
        more_events(pen, beside, &own, sketch.cpu_id);
    }
}

/// One more or fewer, exchanged, with their sum kept, 0 and the highest. A few of them are the ring's own.
fn wrong_counts(pen: &mut Pen, beside: Beside, own: &Parts) {
    let Parts { handed, missed, .. } = *own;
    let (one_more, one_less) = (handed + 1, handed.saturating_sub(1));
    let others = [
        (one_more, missed),
        (one_less, missed),
        (handed, missed.wrapping_add(1)),
        (handed, missed.wrapping_sub(1)),
        (one_more, missed.wrapping_sub(1)),
        (one_less, missed.wrapping_add(1)),
        (missed, handed),
        (0, handed.wrapping_add(missed)),
        (handed, 0),
        (0, 0),
        (MAX, MAX),
    ];
    for (handed, missed) in others {
        beside.ask(pen, &own.with_counts(handed, missed));
    }
}

/// Sound in itself: without the last, without the first, with none; and as many as the counts say are there, but others behind.
fn fewer_events(pen: &mut Pen, beside: Beside, own: &Parts) {
    let Some((last, but_last)) = own.events.split_last() else { return };
    let without_last = own.with_events(but_last.to_vec());
    beside.ask(pen, &without_last);
    beside.ask(pen, &own.with_events(own.events[1..].to_vec()));
    beside.ask(pen, &own.with_events(Vec::new()));
    beside.ask(pen, &[&without_last[..], last].concat());
    beside.ask(pen, &own.joined());
}

/// Sound in itself: one more behind the last, or before the first if a sequence is left for it.
fn more_events(pen: &mut Pen, beside: Beside, own: &Parts, cpu_id: u16) {
    let sequence = own.handed.wrapping_add(own.missed).saturating_add(1);
    let invented = header(pen, cpu_id, 32, sequence);
    beside.ask(pen, &own.with_events([&own.events[..], &[invented]].concat()));
    let first = header(pen, cpu_id, 32, 1);
    beside.ask(pen, &own.with_events([&[first][..], &own.events].concat()));
}
