//! Small rings of every kind. Few of their sizes are multiples of 8, so seams and the data's end fall anywhere.

use crate::generate::sketch::Sketch;
use crate::ring::HIGHEST_POSITION;

const MAX: u64 = u64::MAX;

pub fn small() -> Vec<Sketch> {
    vec![
        // No event: fresh, and with the tail at a write_pos far from 0.
        ring(256, 0x00FF, 0, &[]),
        ring(256, 0xFFFF, 700, &[]),
        // From the data's start; over its end with a header, with a payload, with the last of three; with a seam at it.
        ring(256, 3, 0, &[(33, 1)]),
        ring(256, 0x0102, 256 * 6 - 13, &[(45, 1)]),
        ring(256, 0xFF00, 256 * 5 - 50, &[(70, 41), (33, 44)]),
        ring(256, 0x2468, 256 * 8 - 80, &[(32, 5), (32, 6), (33, 9)]),
        ring(256, 0x1234, 256 * 9 - 36, &[(36, 0x0123_4567_89AB_CDE0), (37, 0x0123_4567_89AB_CDEF)]),
        // No byte free: three events, one in one stretch, one in two. The size of the last two begins with a zero byte.
        ring(256, 0xABCD, 1000, &[(64, 9), (100, 10), (92, 12)]),
        ring(256, 0x0201, 256 * 3, &[(256, 5)]),
        ring(256, 0x4000, 256 * 4 + 129, &[(256, 1)]),
        // The highest sequences, the highest positions.
        ring(256, 0x8001, 500, &[(33, MAX - 2), (40, MAX)]),
        ring(256, 0x7F80, HIGHEST_POSITION - 85, &[(40, 8), (45, 9)]),
        // Larger ones; the last has many events.
        ring(512, 0x0180, 512 * 7 - 101, &[(35, 1), (61, 2), (47, 300)]),
        ring(1024, 0, 1024 * 2 - 3, &[(99, 2), (32, 70_000)]),
        Sketch { cpu_id: 0x0605, ..Sketch::new(512, 333, &[34; 15]) },
    ]
}

/// Those whose recordings are short enough to be laid often.
pub fn smallest() -> Vec<Sketch> {
    small().into_iter().filter(|sketch| sketch.live() < 110).collect()
}

/// Where the events behind the first begin in the recording.
pub fn seams(sketch: &Sketch) -> Vec<usize> {
    (1..sketch.events.len()).map(|index| 8 + (sketch.start(index) - sketch.tail_pos) as usize).collect()
}

pub fn ring(capacity: u64, cpu_id: u16, tail_pos: u64, events: &[(u64, u64)]) -> Sketch {
    Sketch { cpu_id, events: events.to_vec(), ..Sketch::new(capacity, tail_pos, &[]) }
}
