//! All the reasons that hold at a place of a ring, the one told and those behind it.

use crate::count_rings::{data, size, tail, word_at, write};

/// The sequence is compared with the given one, if the call looks at it. Where 32 bytes aren't left, what stands there counts.
pub fn holding(ring: &[u8], at: u64, above: Option<u64>) -> Vec<u8> {
    let header = data(ring, at, 32);
    let (left, size) = (write(ring) - at, size(&header));
    let holds = [
        left < 32,
        header[4..6] != [32, 0],
        size < 32,
        size > left,
        header[6..8] != ring[12..14],
        header[29..] != [0, 0, 0],
        above.is_some_and(|above| word_at(&header, 8) <= above),
    ];
    (1..).zip(holds).filter(|(_, holds)| *holds).map(|(reason, _)| reason).collect()
}

/// The sequence of the event before a place that the calls came to from the tail; 0 at the tail.
pub fn before(ring: &[u8], place: u64) -> u64 {
    let (mut at, mut before) = (tail(ring), 0);
    while at < place {
        let header = data(ring, at, 32);
        before = word_at(&header, 8);
        at += size(&header);
    }
    before
}
