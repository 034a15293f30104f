/* RULES 9.1: the sums worked by hand, as far as these three calls can do them: lines 1 to 5 on one ring, 10, 11 and 12. */
#include "sums.h"

#include "lamipeonga.h"
#include "pair.h"

#include <stdio.h>
#include <string.h>

static uint8_t payload[256];

static void fresh(size_t capacity, uint16_t cpu_id)
{
    lend(LAMIPEONGA_RING_BYTES(capacity), 0);
    expect_number("a fresh ring", LAMIPEONGA_DONE, create(cpu_id));
    expect_number("the format's version", LAMIPEONGA_FORMAT_VERSION, number_at(ring[ARCHIVE] + 8, 4));
}

static uint32_t emit_payload(size_t bytes)
{
    return emit(1000, 2, 1, payload, bytes);
}

static void expect_positions(uint64_t write, uint64_t tail)
{
    expect_number("write_pos", write, number_at(ring[ARCHIVE] + 64, 8));
    expect_number("tail_pos", tail, number_at(ring[ARCHIVE] + 72, 8));
}

static void expect_record(uint64_t last, uint64_t dropped, uint64_t overwritten)
{
    expect_number("last", last, number_at(record[ARCHIVE], 8));
    expect_number("dropped", dropped, number_at(record[ARCHIVE] + 8, 8));
    expect_number("overwritten", overwritten, number_at(record[ARCHIVE] + 16, 8));
}

/* the sequences kept, read from the ring's bytes: first, first + 1, .. last */
static void expect_kept(uint64_t first, uint64_t last)
{
    uint64_t capacity = ring_bytes - 8192;
    uint64_t position = number_at(ring[ARCHIVE] + 72, 8);
    uint64_t stop = number_at(ring[ARCHIVE] + 64, 8);
    uint8_t header[32];
    for (uint64_t sequence = first; sequence <= last; sequence++) {
        for (uint64_t i = 0; i < 32; i++)
            header[i] = ring[ARCHIVE][8192 + (position + i) % capacity];
        expect_number("a sequence kept", sequence, number_at(header + 8, 8));
        position += number_at(header, 4);
    }
    expect_number("the end of what is kept", stop, position);
    expect_number("the inspection", LAMIPEONGA_DONE, inspect());
}

static void line_4(void)
{
    uint8_t event[128] = {128, 0, 0, 0, 32, 0, 3, 0, 7, 0, 0, 0, 0, 0, 0, 0, 0xE8, 0x03, 0, 0, 0, 0, 0, 0, 2, 0, 0, 0, 1, 0, 0, 0};
    memcpy(event + 32, payload, 96);
    expect_number("line 4", LAMIPEONGA_DONE, emit_payload(96));
    expect_positions(544, 288);
    expect_kept(6, 7);
    expect_record(7, 0, 5);
    expect(memcmp(ring[ARCHIVE] + 8192 + 160, event, 96) == 0, "line 4: 96 bytes at data offset 160");
    expect(memcmp(ring[ARCHIVE] + 8192, event + 96, 32) == 0, "line 4: 32 bytes at data offset 0");
}

static void lines_1_to_5(void)
{
    fresh(256, 3);
    for (int i = 0; i < 4; i++)
        expect_number("line 1", LAMIPEONGA_DONE, emit_payload(32));
    expect_positions(256, 0);
    expect_kept(1, 4);
    expect_record(4, 0, 0);

    expect_number("line 2", LAMIPEONGA_DONE, emit_payload(0));
    expect_positions(288, 64);
    expect_kept(2, 5);
    expect_record(5, 0, 1);

    expect_number("line 3", LAMIPEONGA_DONE, emit_payload(96));
    expect_positions(416, 192);
    expect_kept(4, 6);
    expect_record(6, 0, 3);

    line_4();

    expect_number("line 5", LAMIPEONGA_DROPPED, emit_payload(97));
    expect_positions(544, 288);
    expect_kept(6, 7);
    expect_record(2 + 1 + 5, 1, 5);
}

/* sizes 32, 32, 256, 256 */
static void line_10(void)
{
    fresh(256, 3);
    expect_number("line 10", LAMIPEONGA_DONE, emit_payload(0));
    expect_number("line 10", LAMIPEONGA_DONE, emit_payload(0));
    expect_number("line 10", LAMIPEONGA_DROPPED, emit_payload(224));
    expect_number("line 10", LAMIPEONGA_DROPPED, emit_payload(224));
    expect_kept(1, 2);
    expect_record(4, 2, 0);

    fresh(512, 3);
    expect_number("line 10", LAMIPEONGA_DONE, emit_payload(0));
    expect_number("line 10", LAMIPEONGA_DONE, emit_payload(0));
    expect_number("line 10", LAMIPEONGA_DONE, emit_payload(224));
    expect_number("line 10", LAMIPEONGA_DONE, emit_payload(224));
    expect_kept(3, 4);
    expect_record(4, 0, 2);
}

static void line_11(void)
{
    fresh(256, 3);
    set_ring(LAMIPEONGA_FUTEX_COUNTER_AT, 4, 4294967295);
    set_ring(LAMIPEONGA_NEED_WAKE_AT, 1, 1);
    expect_number("line 11", LAMIPEONGA_WAKE, emit_payload(0));
    expect_number("line 11: futex_counter", 0, number_at(ring[ARCHIVE] + 128, 4));
    expect_number("line 11: need_wake", 1, ring[ARCHIVE][4096]);
}

static void line_12(void)
{
    fresh(256, 3);
    ring_bytes = 8447;
    expect_number("line 12", LAMIPEONGA_SHORT, emit_payload(0));
    expect_number("line 12", LAMIPEONGA_SHORT, inspect());
    lend(8449, 0);
    ring_bytes = 8448;
    expect_number("line 12", LAMIPEONGA_DONE, create(3));
    ring_bytes = 8449;
    expect_number("line 12", LAMIPEONGA_LENGTH, emit_payload(0));
    expect_number("line 12", LAMIPEONGA_LENGTH, inspect());
}

unsigned run_sums(void)
{
    for (size_t i = 0; i < sizeof payload; i++)
        payload[i] = (uint8_t)(i * 7 + 1);
    lines_1_to_5();
    line_10();
    line_11();
    line_12();
    return 8;
}
