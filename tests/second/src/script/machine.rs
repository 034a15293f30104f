//! The state that a script plays on, and the answer to each command.

use super::adler::adler;
use super::command::{parse, Command};
use super::fields::hex;
use super::LONGEST_BUFFER;
use crate::ring::{
    self, Confirmed, Copied, Emitted, NewEvent, ReadAnswer, Reader, RecordingReader, Refusal, Report, Slip, Swapped, Verified,
    Writer,
};

pub const UNKNOWN: &str = "unknown";

pub struct Machine {
    pub buffers: [Vec<u8>; 4],
    pub writers: [Writer; 4],
    pub readers: [Reader; 4],
    pub slips: [Slip; 4],
    pub output: Vec<u8>,
    pub recording_reader: RecordingReader,
}

impl Machine {
    pub fn new() -> Machine {
        Machine {
            buffers: Default::default(),
            writers: Default::default(),
            readers: Default::default(),
            slips: Default::default(),
            output: vec![0; LONGEST_BUFFER],
            recording_reader: Default::default(),
        }
    }

    /// The answer to one line, without its newline byte.
    pub fn play(&mut self, line: &[u8]) -> String {
        match parse(line) {
            Some(command) => self.obey(command),
            None => UNKNOWN.to_string(),
        }
    }

    fn obey(&mut self, command: Command) -> String {
        match command {
            Command::Size { buffer, length } => self.size(buffer, length),
            Command::Put { buffer, at, bytes } => self.put(buffer, at, &bytes),
            Command::Get { buffer, at, length } => self.get(buffer, at, length),
            Command::Sum { buffer } => format!("sum {}", adler(&self.buffers[buffer])),
            Command::Outsum => format!("sum {}", adler(&self.output)),
            Command::Writer { writer, record } => set(&mut self.writers[writer], record),
            Command::Reader { reader, record } => set(&mut self.readers[reader], record),
            Command::Slip { slip, numbers } => set(&mut self.slips[slip], numbers),
            Command::Create { buffer, cpu_id } => said(ring::create(&mut self.buffers[buffer], cpu_id).map(|()| "done")),
            Command::Emit { buffer, writer, timestamp, event_type, origin_class, payload } => {
                self.emit(buffer, writer, &NewEvent { timestamp, event_type, origin_class, payload: &payload })
            }
            Command::Inspect { buffer } => self.inspect(buffer),
            Command::Attach { buffer, reader } => self.attach(buffer, reader),
            Command::Read { buffer, reader, lent } => self.read(buffer, reader, lent),
            Command::Copy { buffer, reader, slip, lent } => self.copy(buffer, reader, slip, lent),
            Command::Confirm { buffer, reader, slip } => self.confirm(buffer, reader, slip),
            Command::Follow { buffer, reader } => self.follow(buffer, reader),
            Command::Swap { from, to, writer } => self.swap(from, to, writer),
            Command::Record { buffer, placed, lent } => self.record(buffer, placed, lent),
            Command::Verify { buffer, recording } => self.verify(buffer, recording),
            Command::Serial => set(&mut self.recording_reader, Default::default()),
            Command::Feed { piece } => self.feed(&piece),
            Command::End => self.end(),
        }
    }

    fn size(&mut self, buffer: usize, length: u64) -> String {
        if length > LONGEST_BUFFER as u64 {
            return "too long".to_string();
        }
        self.buffers[buffer] = vec![0; length as usize];
        "ok".to_string()
    }

    /// The stretch of a buffer, if it lies inside.
    fn stretch(&mut self, buffer: usize, at: u64, length: u64) -> Option<&mut [u8]> {
        let whole = &mut self.buffers[buffer];
        let inside = u128::from(at) + u128::from(length) <= whole.len() as u128;
        inside.then(|| &mut whole[at as usize..(at + length) as usize])
    }

    fn put(&mut self, buffer: usize, at: u64, bytes: &[u8]) -> String {
        match self.stretch(buffer, at, bytes.len() as u64) {
            Some(stretch) => {
                stretch.copy_from_slice(bytes);
                "ok".to_string()
            }
            None => "outside".to_string(),
        }
    }

    fn get(&mut self, buffer: usize, at: u64, length: u64) -> String {
        match self.stretch(buffer, at, length) {
            Some(stretch) => hex(stretch),
            None => "outside".to_string(),
        }
    }

    fn emit(&mut self, buffer: usize, writer: usize, new: &NewEvent) -> String {
        let outcome = ring::emit(&mut self.buffers[buffer], self.writers[writer], new);
        let answer = outcome.map(|(answer, record)| {
            self.writers[writer] = record;
            match answer {
                Emitted::Done => "done",
                Emitted::Wake => "wake",
                Emitted::Dropped => "dropped",
            }
        });
        said(answer) + &self.writer_record(writer)
    }

    fn inspect(&self, buffer: usize) -> String {
        said(
            ring::inspect(&self.buffers[buffer])
                .map(|found| format!("kept {} first {} last {}", found.count, found.first, found.last)),
        )
    }

    fn attach(&mut self, buffer: usize, reader: usize) -> String {
        let answer = ring::attach(&self.buffers[buffer]).map(|record| {
            self.readers[reader] = record;
            "done"
        });
        said(answer) + &self.reader_record(reader)
    }

    fn read(&mut self, buffer: usize, reader: usize, lent: usize) -> String {
        let outcome = ring::read(&self.buffers[buffer], self.readers[reader], &mut self.output[..lent]);
        let answer = outcome.map(|(answer, record)| {
            self.readers[reader] = record;
            match answer {
                ReadAnswer::Event(size) => format!("event {size} bytes {}", hex(&self.output[..size as usize])),
                ReadAnswer::Empty => "empty".to_string(),
                ReadAnswer::Moved => "moved".to_string(),
            }
        });
        said(answer) + &self.reader_record(reader)
    }

    /// The slip is written with an event alone.
    fn copy(&mut self, buffer: usize, reader: usize, slip: usize, lent: usize) -> String {
        let outcome = ring::copy(&self.buffers[buffer], self.readers[reader], &mut self.output[..lent]);
        let answer = outcome.map(|(answer, record)| {
            self.readers[reader] = record;
            match answer {
                Copied::Event(handed_out) => {
                    self.slips[slip] = handed_out;
                    let Slip { position, size, sequence, tail_seen } = handed_out;
                    let bytes = hex(&self.output[..size as usize]);
                    format!("event {size} bytes {bytes} slip {position} {size} {sequence} {tail_seen}")
                }
                Copied::Empty => "empty".to_string(),
                Copied::Moved => "moved".to_string(),
            }
        });
        said(answer) + &self.reader_record(reader)
    }

    fn confirm(&mut self, buffer: usize, reader: usize, slip: usize) -> String {
        let outcome = ring::confirm(&self.buffers[buffer], self.readers[reader], self.slips[slip]);
        let answer = outcome.map(|(answer, record)| {
            self.readers[reader] = record;
            match answer {
                Confirmed::Done => "done",
                Confirmed::Again => "again",
            }
        });
        said(answer) + &self.reader_record(reader)
    }

    fn follow(&mut self, buffer: usize, reader: usize) -> String {
        let answer = ring::follow(&self.buffers[buffer], self.readers[reader]).map(|record| {
            self.readers[reader] = record;
            "done"
        });
        said(answer) + &self.reader_record(reader)
    }

    fn swap(&mut self, from: usize, to: usize, writer: usize) -> String {
        let mut new = std::mem::take(&mut self.buffers[to]);
        let outcome = ring::swap(&mut self.buffers[from], &mut new, self.writers[writer]);
        self.buffers[to] = new;
        let answer = outcome.map(|(answer, record)| {
            self.writers[writer] = record;
            match answer {
                Swapped::Done => "done",
                Swapped::Wake => "wake",
            }
        });
        said(answer) + &self.writer_record(writer)
    }

    fn record(&mut self, buffer: usize, placed: u64, lent: usize) -> String {
        let outcome = ring::record(&self.buffers[buffer], placed, &mut self.output[..lent]);
        said(outcome.map(|count| format!("placed {count} bytes {}", hex(&self.output[..count]))))
    }

    fn verify(&self, buffer: usize, recording: usize) -> String {
        said(ring::verify(&self.buffers[buffer], &self.buffers[recording]).map(|answer| match answer {
            Verified::Same => "same".to_string(),
            Verified::DiffersAt(place) => format!("differs at {place}"),
        }))
    }

    fn feed(&mut self, piece: &[u8]) -> String {
        said(self.recording_reader.feed(piece).map(|reports| "fed".to_string() + &told(&reports)))
    }

    fn end(&mut self) -> String {
        let reader = std::mem::take(&mut self.recording_reader);
        "ended".to_string() + &told(reader.end().as_slice())
    }

    fn writer_record(&self, writer: usize) -> String {
        let Writer { last, dropped, overwritten } = self.writers[writer];
        format!(" writer {last} {dropped} {overwritten}")
    }

    fn reader_record(&self, reader: usize) -> String {
        let Reader { read_pos, last, handed, generation } = self.readers[reader];
        format!(" reader {read_pos} {last} {handed} {generation}")
    }
}

/// A record takes any numbers.
fn set<Record>(record: &mut Record, numbers: Record) -> String {
    *record = numbers;
    "ok".to_string()
}

/// An answer, or the refusal in the paper's form.
fn said(answer: Result<impl ToString, Refusal>) -> String {
    match answer {
        Ok(answer) => answer.to_string(),
        Err(Refusal::Damaged { at, why }) => format!("refused 10 at {at} why {}", why.number()),
        Err(refusal) => format!("refused {}", refusal.number()),
    }
}

/// What the reader of recordings reports, each with a space before it.
fn told(reports: &[Report]) -> String {
    let one = |report: &Report| match report {
        Report::Header(bytes) => format!(" header {}", hex(bytes)),
        Report::Payload { at, length } => format!(" payload {at} {length}"),
        Report::Closing { handed, missed } => format!(" closing {handed} {missed}"),
        Report::Fault { fault, place } => format!(" fault {} at {place}", fault.number()),
    };
    reports.iter().map(one).collect()
}
