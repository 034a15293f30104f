//! RULES 9.1: the sums worked by hand, lines 1 to 12.

use crate::ring::*;

struct Console {
    ring: Vec<u8>,
    writer: Writer,
}

impl Console {
    fn fresh(capacity: usize) -> Console {
        let mut ring = vec![0xFF; PAGES + capacity];
        create(&mut ring, 3).unwrap();
        Console { ring, writer: Writer::default() }
    }

    fn emit(&mut self, payload: usize) -> Emitted {
        let payload = vec![0xA0 + self.writer.last as u8; payload];
        let new = NewEvent { timestamp: 1000, event_type: 2, origin_class: 1, payload: &payload };
        let (answer, writer) = emit(&mut self.ring, self.writer, &new).unwrap();
        self.writer = writer;
        answer
    }

    /// Tail, write, count, first and last kept, overwritten.
    fn state(&self) -> (u64, u64, u64, u64, u64, u64) {
        let kept = inspect(&self.ring).unwrap();
        let (write, tail) = positions(&self.ring);
        (tail, write, kept.count, kept.first, kept.last, self.writer.overwritten)
    }

    fn swapped(&mut self, capacity: usize) -> Vec<u8> {
        let mut new = vec![0xFF; PAGES + capacity];
        let (_, writer) = swap(&mut self.ring, &mut new, self.writer).unwrap();
        self.writer = writer;
        new
    }
}

fn word(ring: &[u8], offset: usize) -> u64 {
    u64::from_le_bytes(ring[offset..offset + 8].try_into().unwrap())
}

fn positions(ring: &[u8]) -> (u64, u64) {
    (word(ring, 64), word(ring, 72))
}

fn kept(ring: &[u8]) -> (u64, u64, u64) {
    let found = inspect(ring).unwrap();
    (found.count, found.first, found.last)
}

/// The ring after the given number of lines, with a reader attached before line 1.
fn after_line(lines: usize) -> (Console, Reader) {
    let mut console = Console::fresh(256);
    let reader = attach(&console.ring).unwrap();
    for (line, payload) in [(1, 32), (1, 32), (1, 32), (1, 32), (2, 0), (3, 96), (4, 96), (5, 97)] {
        if line <= lines {
            console.emit(payload);
        }
    }
    (console, reader)
}

#[test]
fn line_1() {
    assert_eq!(after_line(1).0.state(), (0, 256, 4, 1, 4, 0));
}

#[test]
fn line_2() {
    assert_eq!(after_line(2).0.state(), (64, 288, 4, 2, 5, 1));
}

#[test]
fn line_3() {
    assert_eq!(after_line(3).0.state(), (192, 416, 3, 4, 6, 3));
}

#[test]
fn line_4() {
    let (console, _) = after_line(4);
    assert_eq!(console.state(), (288, 544, 2, 6, 7, 5));
    // Event 7 stands in two stretches: its header and 64 bytes of payload at data offset 160, 32 bytes at 0.
    assert_eq!(console.ring[PAGES + 160..PAGES + 164], [128, 0, 0, 0]);
    assert_eq!(console.ring[PAGES + 192..PAGES + 256], [0xA6; 64]);
    assert_eq!(console.ring[PAGES..PAGES + 32], [0xA6; 32]);
}

#[test]
fn line_5() {
    let (mut console, _) = after_line(4);
    let before = console.ring.clone();
    assert_eq!(console.emit(97), Emitted::Dropped);
    assert_eq!(console.writer, Writer { last: 8, dropped: 1, overwritten: 5 });
    assert_eq!(console.ring, before);
    assert_eq!(console.state().2, 2);
}

#[test]
fn line_6() {
    let (console, mut reader) = after_line(5);
    let mut output = vec![0; 128];
    for sequence in [6, 7] {
        let (answer, after) = read(&console.ring, reader, &mut output).unwrap();
        assert_eq!(answer, ReadAnswer::Event(128));
        assert_eq!((after.last, after.last - after.handed), (sequence, 5));
        assert_eq!(word(&output, 8), sequence);
        reader = after;
    }
    assert_eq!(read(&console.ring, reader, &mut output), Ok((ReadAnswer::Empty, reader)));
}

#[test]
fn line_7() {
    let (mut console, _) = after_line(5);
    let new = console.swapped(512);
    assert_eq!(positions(&new), (256, 0));
    assert_eq!((word(&new, 32), word(&console.ring, 32)), (2, 2));
    assert_eq!(kept(&new), (2, 6, 7));
    assert_eq!(console.writer.overwritten, 5);
}

#[test]
fn line_8() {
    let mut console = Console::fresh(512);
    console.emit(0);
    console.emit(224);
    let new = console.swapped(256);
    assert_eq!(positions(&new), (256, 0));
    assert_eq!(kept(&new), (1, 2, 2));
    assert_eq!(console.writer.overwritten, 1);
}

#[test]
fn line_9() {
    let mut console = Console::fresh(1024);
    console.emit(480);
    let new = console.swapped(256);
    assert_eq!(positions(&new), (0, 0));
    assert_eq!(kept(&new), (0, 0, 0));
    assert_eq!(console.writer.overwritten, 1);
}

#[test]
fn line_10() {
    for (capacity, first, last) in [(256, 1, 2), (512, 3, 4)] {
        let mut console = Console::fresh(capacity);
        for payload in [0, 0, 224, 224] {
            console.emit(payload);
        }
        assert_eq!(kept(&console.ring), (2, first, last));
    }
}

#[test]
fn line_11() {
    let mut console = Console::fresh(256);
    console.ring[128..132].fill(0xFF);
    console.ring[4096] = 1;
    assert_eq!(console.emit(0), Emitted::Wake);
    assert_eq!(console.ring[128..132], [0; 4]);
    assert_eq!(console.ring[4096], 1);
}

#[test]
fn line_12() {
    let ring = Console::fresh(256).ring;
    assert_eq!(inspect(&ring[..8447]), Err(Refusal::Short));
    let mut longer = ring.clone();
    longer.push(0);
    assert_eq!(inspect(&longer), Err(Refusal::Length));
    assert_eq!((Refusal::Short.number(), Refusal::Length.number()), (1, 5));
}
