//! Scripts from fixed seeds.

mod calls;
mod damage;
mod edges;
mod life;
mod mixed;
mod pen;
mod random;
mod reasons;
mod recordings;
mod serial;
mod sketch;
mod slips;
mod stretches;
mod verify;

use pen::Pen;

/// Name, seed and author of a script.
type Kind = (&'static str, u64, fn(&mut Pen));

/// Name and script of each of the stored set.
pub fn scripts() -> Vec<(&'static str, Vec<u8>)> {
    let kinds: [Kind; 10] = [
        ("life", 101, life::write),
        ("damage", 202, damage::write),
        ("edges", 303, edges::write),
        ("mixed", 404, mixed::write),
        ("recordings", 505, recordings::write),
        ("stretches", 606, stretches::write),
        ("serial", 707, serial::write),
        ("reasons", 808, reasons::write),
        ("slips", 909, slips::write),
        ("verify", 1010, verify::write),
    ];
    kinds.into_iter().map(|(name, seed, write)| (name, written(seed, write))).collect()
}

fn written(seed: u64, write: fn(&mut Pen)) -> Vec<u8> {
    let mut pen = Pen::new(seed);
    write(&mut pen);
    pen.script
}
