//! How often each call is refused with 10 for each reason, how often a later reason holds there too, and how often the header
//! goes over the data's end. The answers tell the first alone, so the scripts are played.

mod holding;

use crate::count::{gathered, number, word};
use crate::count_rings::{capacity, ring_of};
use crate::script::Machine;
use crate::stored::lines;
use holding::{before, holding};
use std::collections::BTreeMap;
use std::path::Path;

const HEADER: u64 = 32;
const REASONS: [u8; 7] = [1, 2, 3, 4, 5, 6, 7];
const CALLS: [Call; 8] =
    [Call::Emit, Call::Inspect, Call::Read, Call::Copy, Call::Swap, Call::Follow, Call::Record, Call::Verify];

#[derive(Clone, Copy, Debug, PartialEq, Eq, PartialOrd, Ord)]
enum Call {
    Emit,
    Inspect,
    Read,
    Copy,
    Swap,
    Follow,
    Record,
    Verify,
}

#[derive(Clone, Copy, Default)]
struct Times {
    all: usize,
    with_later: usize,
    over_the_end: usize,
}

#[derive(Default)]
struct Counts {
    by_call: BTreeMap<(Call, u8), Times>,
    /// A reason and a later one that holds too.
    together: BTreeMap<(u8, u8), usize>,
    /// Where three or more hold, by the one told.
    three_or_more: BTreeMap<u8, usize>,
    /// Of a header over the data's end, how many bytes stand before it.
    splits: BTreeMap<(u8, u64), usize>,
}

/// A call that was refused with 10.
struct Refused {
    call: Call,
    reason: u8,
    /// All that hold.
    holding: Vec<u8>,
    /// Bytes from the event's start to the data's end.
    before_end: u64,
}

pub fn print(folder: &Path) -> Result<(), String> {
    let counts = gathered(folder, add)?;
    println!("\nreason: call times (of these with a later reason, in a header over the data's end), ..");
    for reason in REASONS {
        println!("{reason}: {}", CALLS.map(|call| shown(&counts, call, reason)).join(", "));
    }
    println!("\nreason told where another holds too: count");
    for (told, other) in pairs() {
        println!("{told} where {other}: {}", times(&counts.together, (told, other)));
    }
    println!("\nreason told where three or more hold: count");
    for reason in 1..=5 {
        println!("{reason}: {}", times(&counts.three_or_more, reason));
    }
    println!("\nreason: in a header with 1, 2, .. 31 bytes before the data's end");
    for reason in REASONS {
        let row: Vec<String> = (1..HEADER).map(|split| times(&counts.splits, (reason, split)).to_string()).collect();
        println!("{reason}: {}", row.join(", "));
    }
    Ok(())
}

fn shown(counts: &Counts, call: Call, reason: u8) -> String {
    let Times { all, with_later, over_the_end } = times(&counts.by_call, (call, reason));
    format!("{call:?} {all} ({with_later}, {over_the_end})").to_lowercase()
}

fn times<Key: Ord, Value: Copy + Default>(counts: &BTreeMap<Key, Value>, key: Key) -> Value {
    counts.get(&key).copied().unwrap_or_default()
}

/// A reason that is told and one behind it. Where 3 is told, 32 bytes are left, and no size under 32 is above that.
fn pairs() -> Vec<(u8, u8)> {
    let all = REASONS.into_iter().flat_map(|told| (told + 1..=7).map(move |other| (told, other)));
    all.filter(|pair| *pair != (3, 4)).collect()
}

fn add(counts: &mut Counts, script: &[u8]) {
    for refused in all_refused(script) {
        count(counts, &refused);
    }
}

/// A rest that no newline ends is no command, so it isn't played.
fn all_refused(script: &[u8]) -> Vec<Refused> {
    let mut machine = Machine::new();
    let play = |line: &[u8]| {
        let answer = machine.play(line);
        refused(&machine, line, answer.as_bytes())
    };
    lines(script).into_iter().filter_map(|line| line.strip_suffix(b"\n")).filter_map(play).collect()
}

/// A refusal leaves the ring and the records, so they are after the call what they were before it.
fn refused(machine: &Machine, line: &[u8], answer: &[u8]) -> Option<Refused> {
    if !answer.starts_with(b"refused 10 ") {
        return None;
    }
    let (ring, at) = (ring_of(machine, line), number(answer, 3));
    let (call, above) = match word(line, 0).as_str() {
        "emit" | "emitlen" => (Call::Emit, None),
        "read" => (Call::Read, Some(machine.readers[number(line, 2) as usize].last)),
        "copy" => (Call::Copy, Some(machine.readers[number(line, 2) as usize].last)),
        "inspect" => (Call::Inspect, Some(before(ring, at))),
        "swap" => (Call::Swap, Some(before(ring, at))),
        "follow" => (Call::Follow, Some(before(ring, at))),
        "record" => (Call::Record, Some(before(ring, at))),
        _ => (Call::Verify, Some(before(ring, at))),
    };
    let before_end = capacity(ring) - at % capacity(ring);
    Some(Refused { call, reason: number(answer, 5) as u8, holding: holding(ring, at, above), before_end })
}

fn count(counts: &mut Counts, refused: &Refused) {
    let Refused { call, reason, before_end, .. } = *refused;
    let over_the_end = before_end < HEADER;
    let later: Vec<u8> = refused.holding.iter().copied().filter(|other| *other > reason).collect();
    let times = counts.by_call.entry((call, reason)).or_default();
    times.all += 1;
    times.with_later += usize::from(!later.is_empty());
    times.over_the_end += usize::from(over_the_end);
    for other in &later {
        *counts.together.entry((reason, *other)).or_default() += 1;
    }
    if later.len() > 1 {
        *counts.three_or_more.entry(reason).or_default() += 1;
    }
    if over_the_end {
        *counts.splits.entry((reason, before_end)).or_default() += 1;
    }
}

#[cfg(test)]
mod tests {
    use super::*;

    fn stored() -> Counts {
        gathered(Path::new("stored"), add).unwrap()
    }

    /// An emission looks at no sequence, and at no event with less than half the capacity behind its start.
    fn can_give(call: Call, reason: u8) -> bool {
        call != Call::Emit || (2..=6).contains(&reason)
    }

    #[test]
    fn each_reason_is_stored_often_from_each_call() {
        let counts = stored();
        for (call, reason) in CALLS.into_iter().flat_map(|call| REASONS.map(|reason| (call, reason))) {
            let all = times(&counts.by_call, (call, reason)).all;
            assert!(if can_give(call, reason) { all >= 50 } else { all == 0 }, "{call:?}, {reason}: {all}");
        }
    }

    /// Behind 6 there is 7 alone, at which an emission doesn't look.
    #[test]
    fn each_reason_is_stored_often_where_a_later_one_holds_too() {
        let counts = stored();
        for (call, reason) in CALLS.into_iter().flat_map(|call| (1..=6).map(move |reason| (call, reason))) {
            let with_later = times(&counts.by_call, (call, reason)).with_later;
            let can = can_give(call, reason) && (call, reason) != (Call::Emit, 6);
            assert!(if can { with_later >= 10 } else { with_later == 0 }, "{call:?}, {reason}: {with_later}");
        }
        for pair in pairs() {
            assert!(times(&counts.together, pair) >= 50, "{pair:?}: {}", times(&counts.together, pair));
        }
        for reason in 1..=5 {
            assert!(times(&counts.three_or_more, reason) >= 50, "{reason}: {}", times(&counts.three_or_more, reason));
        }
        assert_eq!(times(&counts.together, (3, 4)), 0);
    }

    #[test]
    fn each_reason_is_stored_often_in_a_header_over_the_end() {
        let counts = stored();
        for reason in REASONS {
            let of_call = |call| times(&counts.by_call, (call, reason)).over_the_end;
            assert!(CALLS.map(of_call).iter().sum::<usize>() >= 50, "{reason}");
            for split in 1..HEADER {
                let found = times(&counts.splits, (reason, split));
                assert!(found >= 5, "{reason}, {split} bytes before the end: {found}");
            }
        }
    }

    /// By the counts' own reading of the bytes.
    #[test]
    fn the_reason_told_is_the_first_that_holds() {
        let look = |found: &mut usize, script: &[u8]| {
            for refused in all_refused(script) {
                assert_eq!(refused.holding.first(), Some(&refused.reason), "{:?}", refused.call);
                *found += 1;
            }
        };
        assert!(gathered(Path::new("stored"), look).unwrap() > 2000);
    }
}
