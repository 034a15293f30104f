//! Lines of `serial`, `feed` and `end` with a wrong field, in the middle of a file that would show it if one were obeyed.

use super::cuts::{end, feed, whole};
use super::recording::Recording;
use crate::generate::pen::Pen;

const WRONG: [&str; 40] = [
    "serial x",
    "serial 0",
    "serial -",
    "serial ",
    " serial",
    "serials",
    "seria",
    "Serial",
    "SERIAL",
    "serial\r",
    "feed",
    "feed ",
    "feed  ",
    "feed  00",
    " feed 00",
    "feed 00 ",
    "feed 00 00",
    "feed - -",
    "feed --",
    "feed 0",
    "feed 000",
    "feed A0",
    "feed 0A",
    "feed fF",
    "feed 0g",
    "feed 0x00",
    "feed -0",
    "feed 00\r",
    "feeds 00",
    "fee 00",
    "Feed 00",
    "feed\t00",
    "end 1",
    "end -",
    "end ",
    " end",
    "ends",
    "en",
    "End",
    "end\r",
];

pub fn write(pen: &mut Pen) {
    let file = Recording { cpu_id: 0x0605, events: vec![(36, 4), (32, 6)] }.bytes(pen);
    for (index, line) in WRONG.into_iter().enumerate() {
        let place = 1 + index * 97 % (file.len() - 1);
        feed(pen, &file[..place]);
        pen.say(line);
        whole(pen, &file[place..]);
    }
    too_many_bytes(pen, &file);
    among_other_calls(pen, &file);
}

fn too_many_bytes(pen: &mut Pen, file: &[u8]) {
    feed(pen, &file[..20]);
    pen.say(format!("feed {}", "00".repeat(40_961)));
    whole(pen, &file[20..]);
}

/// They leave the reader, and it leaves the buffers, the records and the output.
fn among_other_calls(pen: &mut Pen, file: &[u8]) {
    pen.fresh(0, 256, 0x0605);
    pen.writer(0, 0, 0, 0);
    pen.say("attach 0 0");
    for line in
        ["emit 0 0 1 2 3 aabb", "read 0 0 40960", "record 0 0 40960", "inspect 0", "size 1 8448", "swap 0 1 0", "follow 1 0"]
    {
        feed(pen, &file[..30]);
        pen.say(line);
        feed(pen, &file[30..60]);
        pen.say("outsum");
        pen.sum(0);
        feed(pen, &file[60..]);
        end(pen);
    }
}
