//! The decisions of README.md on lines and fields.

use super::{answer, LONGEST_SCRIPT};

fn answers(script: &str) -> String {
    String::from_utf8(answer(script.as_bytes())).unwrap()
}

#[test]
fn an_empty_script_answers_nothing() {
    assert_eq!(answers(""), "");
}

#[test]
fn the_longest_script_and_one_byte_more() {
    let longest = vec![b'\n'; LONGEST_SCRIPT];
    assert_eq!(answer(&longest).len(), LONGEST_SCRIPT * "unknown\n".len());
    let longer = vec![b'\n'; LONGEST_SCRIPT + 1];
    assert_eq!(answer(&longer), b"too long\n");
}

#[test]
fn a_rest_without_newline_is_unknown() {
    assert_eq!(answers("sum 0\nsum 0"), "sum 1\nunknown\n");
    assert_eq!(answers("sum 0\n\n"), "sum 1\nunknown\n");
}

#[test]
fn numbers_have_one_spelling() {
    assert_eq!(answers("size 0 0\nsize 0 00\nsize 00 0\nsize 0 +1\nsize 0 \n"), "ok\nunknown\nunknown\nunknown\nunknown\n");
    assert_eq!(answers("size 0 18446744073709551615\n"), "too long\n");
    assert_eq!(answers("size 0 18446744073709551616\n"), "unknown\n");
}

#[test]
fn bytes_are_lower_case_pairs_or_a_dash() {
    let script = "size 0 4\nput 0 0 0aff\nput 0 0 0AFF\nput 0 0 0af\nput 0 0 \nput 0 4 -\nput 0 5 -\nget 0 0 4\n";
    assert_eq!(answers(script), "ok\nok\nunknown\nunknown\nunknown\nok\noutside\n0aff0000\n");
}

#[test]
fn stretches_that_pass_2_64_are_outside() {
    let script = "size 0 4\nget 0 18446744073709551615 1\nget 0 1 18446744073709551615\nget 0 4 0\nget 0 5 0\n";
    assert_eq!(answers(script), "ok\noutside\noutside\n-\noutside\n");
}

#[test]
fn fields_above_their_highest_are_wrong() {
    let script = "sum 4\ncreate 0 65536\nemit 0 0 1 4294967296 1 -\nemit 0 0 1 1 256 -\nemitlen 0 0 1 1 1 40961\nread 0 0 40961\nswap 1 1 0\nrecord 0 0 40961\n";
    assert_eq!(answers(script), "unknown\n".repeat(8));
}

#[test]
fn records_are_handed_back_and_kept() {
    let script = "size 0 8448\ncreate 0 3\nemit 0 1 5 6 7 aabb\nread 0 2 33\nread 0 2 34\nread 0 2 0\n";
    let event = "2200000020000300010000000000000005000000000000000600000007000000aabb";
    let expected = format!(
        "ok\ndone\ndone writer 1 0 0\nrefused 14 reader 0 0 0 0\nevent 34 bytes {event} reader 34 1 1 0\nmoved reader 34 1 1 0\n"
    );
    assert_eq!(answers(script), expected);
}

/// By every line that looks at events. An emission comes to the second event, where cpu_id is wrong; a smaller one doesn't.
#[test]
fn a_bad_event_is_told_with_its_place_and_reason() {
    let four_events = format!("size 0 8448\ncreate 0 3\n{}put 0 8262 04\n", "emitlen 0 0 1 1 1 32\n".repeat(4));
    let script = "reader 0 64 1 1 0\nsize 1 8448\ninspect 0\nrecord 0 0 8\nread 0 0 100\nfollow 0 0\nswap 0 1 0\n\
                  emitlen 0 0 1 1 1 96\nemitlen 0 0 1 1 1 32\n";
    let answers = answers(&format!("{four_events}{script}"));
    let refused = "refused 10 at 64 why 5";
    let (reader, writer) = (format!("{refused} reader 64 1 1 0"), format!("{refused} writer 4 0 0"));
    let expected = [refused, refused, &reader, &reader, &writer, &writer, "done writer 5 0 1"];
    assert_eq!(answers.lines().collect::<Vec<&str>>()[9..], expected);
}

#[test]
fn a_recording_is_put_at_the_front_of_the_output() {
    let script = "size 0 8448\ncreate 0 258\nrecord 0 0 9\nrecord 0 1 4\nrecord 0 0 0\nrecord 0 9 40960\nrecord 0 32 1\n";
    let opening = "53504c0100020100";
    let pieces =
        format!("placed 9 bytes {opening}00\nplaced 4 bytes 504c0100\nplaced 0 bytes -\nplaced 23 bytes {}\n", "00".repeat(23));
    assert_eq!(answers(script), format!("ok\ndone\n{pieces}placed 0 bytes -\n"));
}

#[test]
fn refused_recordings_show_no_record_and_leave_the_output() {
    let script = "size 0 8448\ncreate 0 258\nrecord 0 0 8\noutsum\nrecord 0 33 8\nrecord 0 18446744073709551615 40960\n\
                  record 0 18446744073709551616 8\nrecord 0 0\nrecord 1 0 8\nput 0 64 01\nrecord 0 33 8\noutsum\n";
    let answers = answers(script);
    let answers: Vec<&str> = answers.lines().collect();
    assert_eq!(answers[4..11], ["refused 13", "refused 13", "unknown", "unknown", "refused 1", "ok", "refused 10 at 0 why 1"]);
    assert_eq!(answers[3], answers[11]);
}

#[test]
fn a_recording_is_fed_piece_by_piece() {
    let header = "2300000020000201040000000000000005060000000000000708000009000000";
    let script = format!(
        "feed 53504c01000201\nfeed 00{header}aa\nfeed -\nfeed bb\nfeed cc0000000000000000010000\nfeed 00000000000300000000000000\nend\n"
    );
    let expected =
        format!("fed\nfed header {header} payload 40 1\nfed\nfed payload 41 1\nfed payload 42 1\nfed closing 1 3\nended\n");
    assert_eq!(answers(&script), expected);
}

/// The reader is fresh at a script's start, after `serial` and after `end`; then the end of the file is at 0.
#[test]
fn the_reader_is_begun_anew() {
    let script = "end\nfeed 5350\nserial\nend\nfeed 535050\nend\nend\nfeed 735050010000000000\nfeed 00\nfeed -\nend\nend\n";
    let expected = "ended fault 8 at 0\nfed\nok\nended fault 8 at 0\nfed\nended fault 8 at 3\nended fault 8 at 0\n\
                    fed fault 1 at 0\nfed\nfed\nended\nended fault 8 at 0\n";
    assert_eq!(answers(script), expected);
}

#[test]
fn wrong_lines_leave_the_reader() {
    let wrong = ["serial 0", "serial ", "feed", "feed ", "feed 0", "feed A0", "feed 00 00", "end 1", " end", "end "];
    for line in wrong {
        assert_eq!(answers(&format!("feed 53\n{line}\nend\n")), "fed\nunknown\nended fault 8 at 1\n", "{line}");
    }
    let (longest, longer) = ("00".repeat(40_960), "00".repeat(40_961));
    assert_eq!(answers(&format!("feed {longer}\nfeed {longest}\nend\n")), "unknown\nfed fault 1 at 0\nended\n");
}

/// The record stays with an event, and the slip that stands in the answer is the one that is confirmed.
#[test]
fn an_event_is_copied_and_confirmed() {
    let script = "size 0 8448\ncreate 0 3\nemit 0 1 5 6 7 aabb\nattach 0 2\ncopy 0 2 3 33\ncopy 0 2 3 34\nconfirm 0 2 3\n\
                  confirm 0 2 3\ncopy 0 2 3 0\n";
    let event = "2200000020000300010000000000000005000000000000000600000007000000aabb";
    let expected = [
        "refused 14 reader 0 0 0 1".to_string(),
        format!("event 34 bytes {event} slip 0 34 1 0 reader 0 0 0 1"),
        "done reader 34 1 1 1".to_string(),
        "refused 13 reader 34 1 1 1".to_string(),
        "empty reader 34 1 1 1".to_string(),
    ];
    assert_eq!(answers(script).lines().collect::<Vec<&str>>()[4..], expected);
}

/// Slips are all 0 at first. One is written by its own line and by a copy with an event alone; a confirm leaves it.
#[test]
fn slips_are_kept() {
    let two_events = "size 0 8448\ncreate 0 3\nemitlen 0 0 1 1 1 0\nemitlen 0 0 1 1 1 0\nconfirm 0 0 0\n";
    let script = "slip 1 0 64 18446744073709551615 18446744073709551615\ncopy 0 0 1 31\nconfirm 0 1 1\nconfirm 0 2 1\n\
                  copy 0 1 1 0\nconfirm 0 3 1\n\
                  slip 1 18446744073709551615 18446744073709551615 18446744073709551615 0\nconfirm 0 0 1\n";
    let answers = answers(&format!("{two_events}{script}"));
    let done = "done reader 64 18446744073709551615 1 0";
    let expected = [
        "refused 13 reader 0 0 0 0",
        "ok",
        "refused 14 reader 0 0 0 0",
        done,
        done,
        "moved reader 64 18446744073709551615 1 0",
        done,
        "ok",
        "refused 13 reader 0 0 0 0",
    ];
    assert_eq!(answers.lines().collect::<Vec<&str>>()[4..], expected);
}

#[test]
fn after_again_the_output_keeps_the_copied_bytes() {
    let four_events = format!("size 0 8448\ncreate 0 3\n{}", "emitlen 0 0 1 1 1 32\n".repeat(4));
    let script = "attach 0 0\ncopy 0 0 0 64\noutsum\nemitlen 0 0 1 1 1 0\nconfirm 0 0 0\noutsum\n";
    let answers = answers(&format!("{four_events}{script}"));
    let answers: Vec<&str> = answers.lines().collect();
    assert_eq!(answers[10], "again reader 64 0 0 1");
    assert_eq!(answers[8], answers[11]);
}

#[test]
fn wrong_fields_of_slips_copies_and_confirms() {
    let wrong = [
        "slip 4 0 0 0 0",
        "slip 0 0 0 0",
        "slip 0 0 0 0 18446744073709551616",
        "copy 0 0 4 1",
        "copy 0 4 0 1",
        "copy 4 0 0 1",
        "copy 0 0 0 40961",
        "copy 0 0 0",
        "confirm 0 0 4",
        "confirm 0 4 0",
        "confirm 4 0 0",
        "confirm 0 0",
    ];
    for line in wrong {
        assert_eq!(answers(&format!("{line}\n")), "unknown\n", "{line}");
    }
    assert_eq!(answers("copy 0 0 0 40960\nconfirm 0 0 0\n"), "refused 1 reader 0 0 0 0\n".repeat(2));
}

/// The ring is named first. A recording in its place is no ring, and a ring in the recording's place is no recording.
#[test]
fn a_recording_is_verified_beside_a_ring() {
    let recording = format!("53504c0100020100{}", "00".repeat(24));
    let script = format!(
        "size 2 8448\ncreate 2 258\nsize 0 32\nput 0 0 {recording}\nverify 2 0\nverify 0 2\nput 0 31 01\nverify 2 0\n\
         size 0 8\nput 0 0 53504c0100020100\nverify 2 0\nverify 2 1\nsize 0 33\nput 0 0 {recording}\nverify 2 0\n\
         size 3 8448\ncreate 3 258\nverify 2 3\nput 2 64 01\nverify 2 3\nverify 2 1\n"
    );
    let expected = [
        "same",
        "refused 1",
        "ok",
        "differs at 31",
        "ok",
        "ok",
        "differs at 8",
        "differs at 0",
        "ok",
        "ok",
        "differs at 32",
        "ok",
        "done",
        "differs at 0",
        "ok",
        "refused 10 at 0 why 1",
        "refused 10 at 0 why 1",
    ];
    assert_eq!(answers(&script).lines().collect::<Vec<&str>>()[4..], expected);
}

/// Whatever it answers: no buffer, not the output, no record, no slip, and not the file that is being fed.
#[test]
fn verifying_touches_nothing() {
    let event = "2200000020000201010000000000000001000000000000000200000003000000aabb";
    let recording = format!("53504c0100020100{event}000000000000000001000000000000000000000000000000");
    let before = format!(
        "size 0 8448\ncreate 0 258\nemit 0 0 1 2 3 aabb\nattach 0 0\ncopy 0 0 0 40\nsize 1 66\nput 1 0 {recording}\nfeed 5350\n"
    );
    let verified = "verify 0 1\nverify 0 2\nverify 1 0\n";
    let after = "sum 0\nsum 1\nsum 2\nsum 3\noutsum\nconfirm 0 0 0\nemit 0 0 1 2 3 -\nfeed 4c\nend\n";
    let (with, without) = (answers(&format!("{before}{verified}{after}")), answers(&format!("{before}{after}")));
    let (with, without): (Vec<&str>, Vec<&str>) = (with.lines().collect(), without.lines().collect());
    assert_eq!(with[8..11], ["same", "differs at 0", "refused 1"]);
    assert_eq!(with[11..], without[8..]);
}

#[test]
fn wrong_fields_of_verify() {
    for line in ["verify", "verify 0", "verify 0 1 2", "verify 0 4", "verify 4 0", "verify 0 00", "verify 0 1 ", "verify 0 -"] {
        assert_eq!(answers(&format!("{line}\n")), "unknown\n", "{line}");
    }
    for buffer in 0..4 {
        assert_eq!(answers(&format!("verify {buffer} {buffer}\n")), "unknown\n");
    }
    assert_eq!(answers("verify 0 1\nverify 3 2\n"), "refused 1\n".repeat(2));
}
