//! What `record` wrote piece by piece passes, and nothing else passes.

use super::*;
use crate::ring::chance::Chance;

fn in_pieces(ring: &[u8], mut lent: impl FnMut() -> usize) -> Vec<u8> {
    let mut joined = Vec::new();
    loop {
        let mut output = vec![0xEE; lent()];
        let count = record(ring, joined.len() as u64, &mut output).unwrap();
        joined.extend_from_slice(&output[..count]);
        if count == 0 && !output.is_empty() {
            return joined;
        }
    }
}

#[test]
fn what_record_wrote_in_pieces_passes() {
    let mut chance = Chance(3);
    for ring in rings() {
        for lent in 1..=300 {
            assert_eq!(verify(&ring, &in_pieces(&ring, || lent)), SAME, "pieces of {lent}");
        }
        for _ in 0..50 {
            assert_eq!(verify(&ring, &in_pieces(&ring, || chance.below(60))), SAME);
        }
    }
}

/// A piece of it passes only if it is the whole.
#[test]
fn no_piece_passes() {
    for ring in rings() {
        let recording = recorded(&ring);
        let length = recording.len();
        for from in 0..=length {
            for to in [from, (from + length) / 2, length - 1, length].map(|to| to.max(from)) {
                let whole = (from, to) == (0, length);
                assert_eq!(verify(&ring, &recording[from..to]) == SAME, whole, "{from} to {to}");
            }
        }
    }
}

/// The events in order, how many there are, and how many are missed.
type Told = (Vec<Vec<u8>>, u64, u64);

/// To a newly attached reader.
fn handed_out(ring: &[u8]) -> Told {
    let (mut events, mut reader, mut output) = (Vec::new(), attach(ring).unwrap(), vec![0; ring.len()]);
    while let (ReadAnswer::Event(size), after) = read(ring, reader, &mut output).unwrap() {
        events.push(output[..size as usize].to_vec());
        reader = after;
    }
    (events, reader.handed, reader.last - reader.handed)
}

/// By a file that the reader of recordings finds faultless.
fn told(recording: &[u8]) -> Option<Told> {
    let mut reader = RecordingReader::default();
    let (mut events, mut counts) = (Vec::new(), None);
    for report in reader.feed(recording).unwrap() {
        match report {
            Report::Header(bytes) => events.push(bytes),
            Report::Payload { at, length } => {
                let payload = &recording[at as usize..(at + length) as usize];
                events.last_mut().unwrap().extend_from_slice(payload);
            }
            Report::Closing { handed, missed } => counts = Some((handed, missed)),
            Report::Fault { .. } => return None,
        }
    }
    let (handed, missed) = counts?;
    reader.end().is_none().then_some((events, handed, missed))
}

/// The ring's own, or another ring's, mostly with a byte or two altered, cut off or gone on.
fn any_recording(chance: &mut Chance, recordings: &[Vec<u8>], own: usize) -> Vec<u8> {
    let from = if chance.below(4) > 0 { own } else { chance.below(recordings.len()) };
    let mut recording = recordings[from].clone();
    for _ in 0..chance.below(3) {
        let place = chance.below(recording.len());
        recording[place] = [0, 1, 0xFF, recording[place]][chance.below(4)];
    }
    match chance.below(6) {
        0 => recording.truncate(chance.below(recording.len() + 1)),
        1 => recording.extend(vec![0; 1 + chance.below(3)]),
        _ => {}
    }
    recording
}

/// A recording passes exactly if it is faultless, bears the ring's cpu_id, and has the events and the counts of a newly attached
/// reader; otherwise the bytes agree up to the place and not there.
#[test]
fn a_recording_passes_exactly_if_it_has_what_a_reader_is_handed() {
    let (rings, mut chance, mut same) = (rings(), Chance(19), 0);
    let recordings: Vec<Vec<u8>> = rings.iter().map(|ring| recorded(ring)).collect();
    let handed: Vec<Told> = rings.iter().map(|ring| handed_out(ring)).collect();
    for turn in 0..60_000 {
        let index = turn % rings.len();
        let (ring, own) = (&rings[index], &recordings[index]);
        let recording = any_recording(&mut chance, &recordings, index);
        let told = told(&recording);
        let has_what_is_handed = told.as_ref() == Some(&handed[index]) && recording[5..7] == ring[12..14];
        match verify(ring, &recording).unwrap() {
            Verified::Same => {
                assert!(has_what_is_handed);
                same += 1;
            }
            Verified::DiffersAt(place) => {
                assert!(!has_what_is_handed);
                assert_eq!(recording[..place], own[..place]);
                assert_ne!(recording.get(place), own.get(place));
            }
        }
    }
    assert!(same > 5_000 && same < 40_000, "{same} the same");
}
