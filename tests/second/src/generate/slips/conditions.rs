//! Refusal 13 of confirms: each of its conditions alone where that can be, several together, and the numbers at each edge that
//! pass.

use super::rings::{positions, set_reader, set_slip, HEADER, MAX};
use crate::generate::pen::Pen;
use crate::ring::{Reader, Slip, HIGHEST_POSITION};

const RINGS: usize = 52;
const CAPACITIES: [[u64; 4]; 2] = [[256, 512, 8192, 16_384], [1024, 2048, 4096, 32_768]];

/// A confirm on a buffer whose write_pos is given.
#[derive(Clone, Copy)]
struct Call {
    buffer: usize,
    write: u64,
    reader: Reader,
    slip: Slip,
}

#[derive(Clone, Copy)]
enum Condition {
    HandedAboveLast,
    ReadPosAboveWritePos,
    PositionBelowReadPos,
    SizeUnder32,
    EndAboveWritePos,
    SequenceNotAboveLast,
}

use Condition::*;

const CONDITIONS: [Condition; 6] =
    [HandedAboveLast, ReadPosAboveWritePos, PositionBelowReadPos, SizeUnder32, EndAboveWritePos, SequenceNotAboveLast];

pub fn write(pen: &mut Pen) {
    for round in 0..RINGS {
        let call = any_ring(pen, round);
        for condition in CONDITIONS {
            for spoilt in ways(pen, call, condition) {
                spoilt.made(pen);
            }
        }
        for _ in 0..8 {
            together(pen, call);
        }
        edges(pen, call);
    }
}

/// None of the conditions holds. 64 bytes or more lie from the tail to the slip's position, and as many from there to write_pos.
fn any_ring(pen: &mut Pen, round: usize) -> Call {
    let buffer = round % 4;
    let capacity = CAPACITIES[round / (RINGS / 2)][buffer];
    pen.fresh(buffer, capacity, 3);
    let live = 128 + pen.random.below(capacity - 127);
    let tail = pen.random.pick(&[0, 1, 700, 1 << 32, HIGHEST_POSITION - live]);
    let write = tail + live;
    positions(pen, buffer, tail, write);
    let position = write - 64 - pen.random.below(live - 127);
    let read_pos = pen.random.pick(&[position, position - 1, tail, position - 40]);
    let last = pen.random.pick(&[2, 3, 900, 1 << 63, MAX - 1]);
    let handed = pen.random.pick(&[0, last, last / 2]);
    let reader = Reader { read_pos: read_pos.max(1), last, handed, generation: pen.random.below(3) };
    let tail_seen = pen.random.pick(&[tail, 0, MAX]);
    let size = HEADER + pen.random.below(write - position - HEADER + 1);
    Call { buffer, write, reader, slip: Slip { position, size, sequence: last + 1, tail_seen } }
}

/// The ways in which one condition holds. No other holds then, but for read_pos above write_pos: there the slip's position is
/// below read_pos or its end above write_pos.
fn ways(pen: &mut Pen, call: Call, condition: Condition) -> Vec<Call> {
    let Call { write, reader, slip, .. } = call;
    let with_reader = |reader| Call { reader, ..call };
    let with_slip = |slip| Call { slip, ..call };
    match condition {
        HandedAboveLast => {
            let above = reader.last + 1 + pen.random.below(MAX - reader.last);
            [reader.last + 1, above].map(|handed| with_reader(Reader { handed, ..reader })).to_vec()
        }
        ReadPosAboveWritePos => {
            let before = |read_pos| with_reader(Reader { read_pos, ..reader });
            let behind = |read_pos| Call { slip: Slip { position: read_pos, ..slip }, ..before(read_pos) };
            vec![before(write + 1), behind(write + 1), pen.random.pick(&[before(MAX), behind(MAX - 64)])]
        }
        PositionBelowReadPos => {
            let below = pen.random.below(reader.read_pos);
            [reader.read_pos - 1, below].map(|position| with_slip(Slip { position, ..slip })).to_vec()
        }
        SizeUnder32 => [31, 0, 1 + pen.random.below(30)].map(|size| with_slip(Slip { size, ..slip })).to_vec(),
        EndAboveWritePos => ends(pen, call).into_iter().map(with_slip).collect(),
        SequenceNotAboveLast => {
            let below = 1 + pen.random.below(reader.last - 1);
            [reader.last, below, 0].map(|sequence| with_slip(Slip { sequence, ..slip })).to_vec()
        }
    }
}

/// One above write_pos, far above, and sums that pass 2^64 to a small number, as if the end were inside the ring.
fn ends(pen: &mut Pen, call: Call) -> Vec<Slip> {
    let Call { write, slip, .. } = call;
    let with = |position: u64, size: u64| Slip { position, size, ..slip };
    // The size with which the sum is 2^64 and so much more.
    let past = |position: u64, more: u64| with(position, more.wrapping_sub(position));
    let inside = HEADER + pen.random.below(slip.size - HEADER + 1);
    let size = HEADER + pen.random.below(64);
    vec![
        with(slip.position, write - slip.position + 1),
        with(write, size),
        with(slip.position, MAX),
        past(slip.position, 0),
        past(slip.position, pen.random.below(slip.position)),
        past(write + 1, write),
        with(MAX, HEADER + 1),
        past(MAX, inside),
        with(MAX, pen.random.pick(&[HEADER, MAX, 1 << 63])),
        with(1 << 63, 1 << 63),
    ]
}

/// Two conditions or more.
fn together(pen: &mut Pen, call: Call) {
    let mut spoilt = call;
    for _ in 0..2 + pen.random.below(3) {
        let condition = pen.random.pick(&CONDITIONS);
        let ways = ways(pen, call, condition);
        let way = pen.random.pick(&ways);
        match condition {
            HandedAboveLast => spoilt.reader.handed = way.reader.handed,
            ReadPosAboveWritePos => spoilt.reader.read_pos = way.reader.read_pos,
            PositionBelowReadPos => spoilt.slip.position = way.slip.position,
            SizeUnder32 => spoilt.slip.size = way.slip.size,
            EndAboveWritePos => spoilt.slip = Slip { sequence: spoilt.slip.sequence, ..way.slip },
            SequenceNotAboveLast => spoilt.slip.sequence = way.slip.sequence,
        }
    }
    spoilt.made(pen);
}

/// The smallest that pass, and all of them at once.
fn edges(pen: &mut Pen, call: Call) {
    let Call { write, reader, slip, .. } = call;
    let at_once = Slip { position: write - HEADER, size: HEADER, ..slip };
    let sequence = reader.last + 1 + pen.random.below(MAX - reader.last);
    let slips = [
        Slip { position: reader.read_pos, size: HEADER, ..slip },
        Slip { size: write - slip.position, ..slip },
        Slip { sequence, ..slip },
        at_once,
    ];
    for slip in slips {
        Call { slip, ..call }.made(pen);
    }
    let reader = Reader { read_pos: at_once.position, handed: reader.last, ..reader };
    Call { reader, slip: at_once, ..call }.made(pen);
}

impl Call {
    fn made(self, pen: &mut Pen) {
        let (reader, slip) = (pen.random.below(2) as usize, pen.random.below(4) as usize);
        set_reader(pen, reader, self.reader);
        set_slip(pen, slip, self.slip);
        pen.confirm(self.buffer, reader, slip);
    }
}
