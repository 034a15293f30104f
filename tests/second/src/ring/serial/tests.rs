//! Files worked by hand; a second reading of the request, over a whole file; the longest file.

use super::*;
use crate::ring;
use crate::ring::chance::Chance;

/// With cpu_id 0x0102.
const OPENING_BYTES: [u8; 8] = [0x53, 0x50, 0x4C, 1, 0, 2, 1, 0];

fn header(size: u32, sequence: u64) -> Vec<u8> {
    let rest = [5, 6, 0, 0, 0, 0, 0, 0, 7, 8, 0, 0, 9, 0, 0, 0];
    [&size.to_le_bytes()[..], &[32, 0, 2, 1], &sequence.to_le_bytes(), &rest].concat()
}

fn closing(handed: u64, missed: u64) -> Vec<u8> {
    [[0; 8], handed.to_le_bytes(), missed.to_le_bytes()].concat()
}

/// Two events, 4 with a payload of three bytes and 6 with none. Headers at 8 and 43, the closing at 75, 99 bytes in all.
fn file() -> Vec<u8> {
    [&OPENING_BYTES[..], &header(35, 4), &[0xAA, 0, 0xBB], &header(32, 6), &closing(2, 4)].concat()
}

fn told() -> Vec<Report> {
    vec![
        Report::Header(header(35, 4)),
        Report::Payload { at: 40, length: 3 },
        Report::Header(header(32, 6)),
        Report::Closing { handed: 2, missed: 4 },
    ]
}

/// The reports of a whole file in one piece, and its end.
fn read(file: &[u8]) -> (Vec<Report>, Option<Report>) {
    let mut reader = RecordingReader::default();
    let reports = reader.feed(file).unwrap();
    (reports, reader.end())
}

/// Number and place of the fault that a file ends with.
fn fault_of(file: &[u8]) -> Option<(u8, u64)> {
    let (reports, end) = read(file);
    match reports.into_iter().chain(end).last() {
        Some(Report::Fault { fault, place }) => Some((fault.number(), place)),
        _ => None,
    }
}

fn altered(at: usize, byte: u8) -> Vec<u8> {
    let mut file = file();
    file[at] = byte;
    file
}

#[test]
fn a_sound_file() {
    assert_eq!(read(&file()), (told(), None));
}

#[test]
fn the_shortest_sound_file() {
    let file = [&OPENING_BYTES[..], &closing(0, 0)].concat();
    assert_eq!(read(&file), (vec![Report::Closing { handed: 0, missed: 0 }], None));
}

/// Sequences may leave any number out, up to the highest one.
#[test]
fn the_highest_sequence() {
    let file = [&OPENING_BYTES[..], &header(32, u64::MAX), &closing(1, u64::MAX - 1)].concat();
    assert_eq!(read(&file).0[1..], [Report::Closing { handed: 1, missed: u64::MAX - 1 }]);
    assert_eq!(fault_of(&file), None);
}

#[test]
fn a_recording_of_a_ring() {
    let mut ring = vec![0; ring::PAGES + 256];
    ring::create(&mut ring, 0x0102).unwrap();
    let new = ring::NewEvent { timestamp: 0x0605, event_type: 0x0807, origin_class: 9, payload: &[1, 2] };
    ring::emit(&mut ring, Default::default(), &new).unwrap();
    let mut output = [0; 66];
    assert_eq!(ring::record(&ring, 0, &mut output), Ok(66));
    let payload = Report::Payload { at: 40, length: 2 };
    let told = vec![Report::Header(header(34, 1)), payload, Report::Closing { handed: 1, missed: 0 }];
    assert_eq!(read(&output), (told, None));
}

#[test]
fn faults_of_the_opening() {
    for (at, byte, number) in [(0, 0x73, 1), (1, 0, 1), (2, 0x4D, 1), (3, 2, 2), (3, 0, 2), (4, 1, 2), (7, 1, 3), (7, 255, 3)] {
        assert_eq!(read(&altered(at, byte)), (vec![Report::Fault { fault: fault(number), place: 0 }], None));
    }
}

fn fault(number: u8) -> Fault {
    let faults = [
        Fault::WrongMark,
        Fault::WrongVersion,
        Fault::SpareByte,
        Fault::BadHeader,
        Fault::SequenceNotRising,
        Fault::WrongCounts,
        Fault::BytesAfterClosing,
        Fault::EndedEarly,
    ];
    faults[usize::from(number) - 1]
}

/// cpu_id 0x0103 in the opening makes the first header wrong, and not the opening.
#[test]
fn faults_of_headers() {
    assert_eq!(fault_of(&altered(5, 3)), Some((4, 8)));
    for start in [8, 43] {
        for offset in [4, 5, 6, 7, 29, 30, 31] {
            assert_eq!(fault_of(&altered(start + offset, 64)), Some((4, start as u64)), "byte {offset}");
        }
        for size in 1..32 {
            assert_eq!(fault_of(&altered(start, size)), Some((4, start as u64)), "size {size}");
        }
        for offset in 16..29 {
            assert_eq!(fault_of(&altered(start + offset, 64)), None, "byte {offset}");
        }
    }
    for (at, sequence, place) in [(16, 0, 8), (51, 4, 43), (51, 3, 43), (51, 0, 43)] {
        assert_eq!(fault_of(&altered(at, sequence)), Some((5, place)));
    }
    assert_eq!(read(&altered(51, 4)).0, [&told()[..2], &[Report::Fault { fault: fault(5), place: 43 }]].concat());
}

#[test]
fn faults_of_the_closing() {
    for offset in 4..24 {
        let number = if offset < 8 { 3 } else { 6 };
        assert_eq!(fault_of(&altered(75 + offset, 1)), Some((number, 75)), "byte {offset}");
    }
    for (handed, missed) in [(1, 5), (3, 3), (2, 3), (2, 5), (0, 0), (4, 2), (2, 4 + (1 << 63))] {
        let file = [&file()[..75], &closing(handed, missed)].concat();
        assert_eq!(fault_of(&file), Some((6, 75)), "{handed} and {missed}");
    }
}

/// Three zero bytes are the start of a header of 16,777,216 bytes and more, and one is of 256.
#[test]
fn the_closing_is_known_by_four_zero_bytes() {
    for (size, told) in [(1 << 24, true), (1 << 16, true), (1 << 8, true), (0, false)] {
        let file = [&OPENING_BYTES[..], &header(size, 1)].concat();
        let expected = if told { (8, 40) } else { (3, 8) };
        assert_eq!((fault_of(&file), read(&file).0[0] == Report::Header(header(size, 1))), (Some(expected), told));
    }
}

#[test]
fn several_faults_at_once() {
    let opening = |mark, version, spare| fault_of(&[mark, b'P', b'L', version, 0, 2, 1, spare]);
    assert_eq!((opening(0, 2, 1), opening(0, 1, 1), opening(b'S', 2, 1)), (Some((1, 0)), Some((1, 0)), Some((2, 0))));
    let mut bad = header(31, 0);
    assert_eq!(fault_of(&[&OPENING_BYTES[..], &bad].concat()), Some((4, 8)));
    bad[..4].fill(0);
    assert_eq!(fault_of(&[&OPENING_BYTES[..], &bad].concat()), Some((3, 8)));
    let both = [&file()[..75], &[0, 0, 0, 0, 0, 0, 0, 1], &[9; 16]].concat();
    assert_eq!(fault_of(&both), Some((3, 75)));
}

/// In one piece with the closing and in the next; a recording that follows isn't another one.
#[test]
fn bytes_after_the_closing() {
    for more in [vec![0], vec![0x53, 0x50], file()] {
        let longer = [file(), more.clone()].concat();
        let reported = Report::Fault { fault: fault(7), place: 99 };
        assert_eq!(read(&longer), ([told(), vec![reported.clone()]].concat(), None));
        let mut reader = RecordingReader::default();
        assert_eq!((reader.feed(&file()), reader.feed(&[]), reader.end()), (Ok(told()), Ok(vec![]), None));
        assert_eq!((reader.feed(&more), reader.end()), (Ok(vec![reported]), None));
    }
}

#[test]
fn a_file_cut_off_at_every_length() {
    for length in 0..99 {
        assert_eq!(fault_of(&file()[..length]), Some((8, length as u64)));
    }
}

/// One byte short, a part isn't judged, however wrong it is.
#[test]
fn parts_are_judged_once_whole() {
    let closing = [&[0; 4][..], &[9; 20]].concat();
    for (start, part, number) in [(0, &[9; 8][..], 1), (8, &[9; 32], 4), (43, &[9; 32], 4), (43, &closing, 3), (75, &closing, 3)]
    {
        for length in 0..part.len() {
            let file = [&file()[..start], &part[..length]].concat();
            assert_eq!(fault_of(&file), Some((8, file.len() as u64)));
        }
        assert_eq!(fault_of(&[&file()[..start], part].concat()), Some((number, start as u64)));
    }
}

#[test]
fn after_a_fault_nothing_is_told() {
    let mut reader = RecordingReader::default();
    assert_eq!(reader.feed(&altered(12, 33)), Ok(vec![Report::Fault { fault: fault(4), place: 8 }]));
    for piece in [file(), vec![], vec![0; 100]] {
        assert_eq!((reader.feed(&piece), reader.end()), (Ok(vec![]), None));
    }
    assert_eq!(reader.length, 99 + 99 + 100);
}

/// The same file byte by byte: each report comes with the last byte of what it tells.
#[test]
fn reports_come_with_the_byte_that_makes_them_whole() {
    let mut reader = RecordingReader::default();
    for (at, byte) in file().into_iter().enumerate() {
        let expected = match at {
            39 => vec![Report::Header(header(35, 4))],
            40..=42 => vec![Report::Payload { at: at as u64, length: 1 }],
            74 => vec![Report::Header(header(32, 6))],
            98 => vec![Report::Closing { handed: 2, missed: 4 }],
            _ => vec![],
        };
        assert_eq!(reader.feed(&[byte]), Ok(expected), "byte {at}");
        assert!(reader.kept.len() < 32);
    }
    assert_eq!(reader.end(), None);
}

/// The request read once more, over a whole file: what the parts are is decided by slices of it, not byte by byte.
mod whole {
    use super::*;

    pub fn reports(file: &[u8]) -> Vec<Report> {
        let mut reports = Vec::new();
        if let Err((number, place)) = parts(file, &mut reports) {
            reports.push(Report::Fault { fault: fault(number), place: place as u64 });
        }
        reports
    }

    fn number_at(part: &[u8], at: usize) -> u64 {
        u64::from_le_bytes(part[at..at + 8].try_into().unwrap())
    }

    fn parts(file: &[u8], reports: &mut Vec<Report>) -> Result<(), (u8, usize)> {
        let early = (8, file.len());
        let opening = file.get(..8).ok_or(early)?;
        let conditions = [(1, opening.starts_with(b"SPL")), (2, opening[3..5] == [1, 0]), (3, opening[7] == 0)];
        first_that_fails(&conditions, 0)?;
        let (mut at, mut sequences) = (8, vec![0]);
        while file.get(at..at + 4).ok_or(early)? != [0; 4] {
            let header = file.get(at..at + 32).ok_or(early)?;
            let size = u32::from_le_bytes(header[..4].try_into().unwrap()) as usize;
            let formed = size > 31 && header[4..6] == [32, 0] && header[6..8] == opening[5..7] && header[29..] == [0; 3];
            let rising = number_at(header, 8) > *sequences.last().unwrap();
            first_that_fails(&[(4, formed), (5, rising)], at)?;
            sequences.push(number_at(header, 8));
            reports.push(Report::Header(header.to_vec()));
            let payload = (size - 32).min(file.len() - at - 32) as u64;
            if payload > 0 {
                reports.push(Report::Payload { at: at as u64 + 32, length: payload });
            }
            at += size;
        }
        let closing = file.get(at..at + 24).ok_or(early)?;
        let events = sequences.len() as u64 - 1;
        let (handed, missed) = (number_at(closing, 8), number_at(closing, 16));
        let counted = handed == events && missed == sequences.last().unwrap() - events;
        first_that_fails(&[(3, closing[4..8] == [0; 4]), (6, counted)], at)?;
        reports.push(Report::Closing { handed, missed });
        first_that_fails(&[(7, file.len() == at + 24)], at + 24)
    }

    fn first_that_fails(conditions: &[(u8, bool)], place: usize) -> Result<(), (u8, usize)> {
        conditions.iter().find(|(_, holds)| !holds).map_or(Ok(()), |(number, _)| Err((*number, place)))
    }
}

/// All reports with the end's, stretches that touch made one.
fn joined(pieces: &[&[u8]]) -> Vec<Report> {
    let mut reader = RecordingReader::default();
    let mut reports = Vec::new();
    for piece in pieces {
        for report in reader.feed(piece).unwrap() {
            add(&mut reports, report);
        }
        assert!(reader.kept.len() < 32);
    }
    reports.extend(reader.end());
    reports
}

fn any_file(chance: &mut Chance) -> Vec<u8> {
    let (mut file, mut sequence, events) = (OPENING_BYTES.to_vec(), 0, chance.below(5) as u64);
    for _ in 0..events {
        sequence += 1 + chance.below(3) as u64;
        let payload = chance.below(3) * chance.below(50);
        file.extend(header(32 + payload as u32, sequence));
        file.extend((0..payload).map(|_| chance.below(4) as u8));
    }
    file.extend(closing(events, sequence - events));
    for _ in 0..chance.below(3) {
        let at = chance.below(file.len());
        file[at] = [0, 1, 2, 32, 255][chance.below(5)];
    }
    match chance.below(6) {
        0 => file.truncate(chance.below(file.len())),
        1 => file.extend(vec![0; chance.below(40)]),
        _ => {}
    }
    file
}

#[test]
fn however_the_file_was_cut() {
    let mut chance = Chance(4);
    let mut met = [0; 9];
    for _ in 0..20_000 {
        let file = any_file(&mut chance);
        let expected = whole::reports(&file);
        let mut places: Vec<usize> = (0..chance.below(12)).map(|_| chance.below(file.len() + 1)).collect();
        places.extend([0, file.len()]);
        places.sort();
        let pieces: Vec<&[u8]> = places.windows(2).map(|pair| &file[pair[0]..pair[1]]).collect();
        assert_eq!(joined(&pieces), expected);
        assert_eq!(joined(&file.chunks(1).collect::<Vec<&[u8]>>()), expected);
        assert_eq!(joined(&[&file]), expected);
        match expected.last() {
            Some(Report::Fault { fault, .. }) => met[usize::from(fault.number())] += 1,
            _ => met[0] += 1,
        }
    }
    assert!(met.iter().all(|count| *count >= 100), "{met:?}");
}

/// Readers of each kind with so many bytes behind them: within a payload, at a header, within one, in the closing, after it,
/// after a fault.
fn far(length: u64) -> Vec<RecordingReader> {
    let reader = RecordingReader { length, cpu_id: 0x0102, events: 2, last: 5, ..Default::default() };
    let with = |awaited, kept: &[u8]| RecordingReader { awaited, kept: kept.to_vec(), ..reader.clone() };
    vec![
        with(Awaited::Payload(1), &[]),
        with(Awaited::Payload(4_000_000_000), &[]),
        with(Awaited::HeaderOrClosing, &[]),
        with(Awaited::HeaderOrClosing, &header(32, 6)[..31]),
        with(Awaited::HeaderOrClosing, &closing(2, 3)[..23]),
        with(Awaited::End, &[]),
        with(Awaited::Nothing, &[]),
    ]
}

/// Exactly where the file would pass 2^62; a piece of no bytes takes it no further.
#[test]
fn a_file_above_2_62_is_refused() {
    for before in [0, 1, 2, 31, 32, 100] {
        for reader in far((1 << 62) - before) {
            for length in 0..=before + 33 {
                let mut fed = reader.clone();
                let answer = fed.feed(&vec![7; length as usize]);
                if length > before {
                    assert_eq!((answer, fed), (Err(Refusal::Far), reader.clone()), "{length} of {before}");
                } else {
                    assert!(answer.is_ok());
                    assert_eq!(fed.length, reader.length + length);
                }
            }
        }
    }
    assert_eq!(Refusal::Far.number(), 9);
}

/// The refused piece is as if it had never come, and what still fits is told as ever.
#[test]
fn a_refusal_changes_nothing() {
    let place = (1 << 62) - 100;
    let mut reader = RecordingReader { length: place, ..Default::default() };
    let longer = [file(), vec![0, 0]].concat();
    assert_eq!(reader.feed(&longer), Err(Refusal::Far));
    assert_eq!(reader, RecordingReader { length: place, ..Default::default() });
    assert_eq!(reader.feed(&longer[..50]).unwrap()[1], Report::Payload { at: place + 40, length: 3 });
    assert_eq!(reader.feed(&longer[50..]), Err(Refusal::Far));
    assert_eq!(reader.feed(&longer[50..99]).unwrap(), told()[2..]);
    assert_eq!((reader.feed(&[0, 0]), reader.end()), (Err(Refusal::Far), None));
    assert_eq!(reader.feed(&[0]), Ok(vec![Report::Fault { fault: fault(7), place: (1 << 62) - 1 }]));
    assert_eq!((reader.feed(&[0]), reader.feed(&[]), reader.end()), (Err(Refusal::Far), Ok(vec![]), None));
}

/// The file's length is a place too, and it may be 2^62.
#[test]
fn a_file_of_2_62_bytes_that_ended_early() {
    let mut reader = RecordingReader { length: (1 << 62) - 7, ..Default::default() };
    assert_eq!((reader.feed(b"SPL"), reader.feed(&[1, 0, 0, 0, 0])), (Ok(vec![]), Err(Refusal::Far)));
    assert_eq!((reader.feed(&[1, 0, 0, 0]), reader.feed(&[])), (Ok(vec![]), Ok(vec![])));
    assert_eq!(reader.end(), Some(Report::Fault { fault: Fault::EndedEarly, place: 1 << 62 }));
}

/// After a fault, too, the bytes that come make the file longer.
#[test]
fn bytes_after_a_fault_count() {
    let mut reader = RecordingReader { length: (1 << 62) - 40, ..Default::default() };
    assert_eq!(reader.feed(&[9; 8]), Ok(vec![Report::Fault { fault: Fault::WrongMark, place: (1 << 62) - 40 }]));
    let before = reader.clone();
    assert_eq!((reader.feed(&[9; 33]), &reader), (Err(Refusal::Far), &before));
    assert_eq!((reader.feed(&[9; 32]), reader.feed(&[9])), (Ok(vec![]), Err(Refusal::Far)));
    assert_eq!((reader.feed(&[]), reader.end()), (Ok(vec![]), None));
}
