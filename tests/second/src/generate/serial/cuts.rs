//! One file fed in different ways, up to its end.

use crate::generate::pen::Pen;
use crate::script::fields::hex;

pub fn feed(pen: &mut Pen, piece: &[u8]) -> String {
    pen.say(format!("feed {}", hex(piece)))
}

pub fn end(pen: &mut Pen) {
    pen.say("end");
}

pub fn every_way(pen: &mut Pen, file: &[u8]) {
    whole(pen, file);
    in_random_cuts(pen, file);
    byte_by_byte(pen, file);
}

/// For the many files that differ little.
pub fn some_way(pen: &mut Pen, file: &[u8]) {
    match pen.random.below(4) {
        0 => in_random_cuts(pen, file),
        1 => {
            let place = pen.random.below(file.len() as u64 + 1) as usize;
            at_places(pen, file, &[place]);
        }
        _ => whole(pen, file),
    }
}

pub fn whole(pen: &mut Pen, file: &[u8]) {
    feed(pen, file);
    end(pen);
}

pub fn byte_by_byte(pen: &mut Pen, file: &[u8]) {
    for byte in file {
        feed(pen, &[*byte]);
    }
    end(pen);
}

/// Among the pieces are empty ones, and such as hold just a header, a closing or a byte more or less.
pub fn in_random_cuts(pen: &mut Pen, file: &[u8]) {
    let mut rest = file;
    while !rest.is_empty() {
        let any = pen.random.below(64) as usize;
        let length = pen.random.pick(&[0, 1, 2, 3, 8, 24, 31, 32, 33, any, any, any]);
        let (piece, after) = rest.split_at(length.min(rest.len()));
        feed(pen, piece);
        rest = after;
    }
    end(pen);
}

/// Cut at each of the places, which rise.
pub fn at_places(pen: &mut Pen, file: &[u8], places: &[usize]) {
    let mut from = 0;
    for place in places {
        feed(pen, &file[from..*place]);
        from = *place;
    }
    feed(pen, &file[from..]);
    end(pen);
}
