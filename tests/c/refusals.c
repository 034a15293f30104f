/*
 * Each refusal number that the three calls can give, once at least: 1 to 9, 11, 16, 17, and 101 to 107, which stand in place of 10.
 * 13, 14 and 15 belong to reading, following and the swap, which C doesn't call. 12 is nobody's, and no other number is a right answer either.
 */
#include "refusals.h"

#include "lamipeonga.h"
#include "pair.h"

#include <stdio.h>
#include <string.h>

static const uint64_t FARTHEST = (uint64_t)1 << 62;
static const uint64_t GREATEST = (uint64_t)-1;

static uint8_t payload[256];

/* a ring of capacity 256 with the events 1 to 4, 64 bytes each, from a position on: full */
static void full_from(uint64_t position)
{
    lend(LAMIPEONGA_RING_BYTES(256), 0);
    expect_number("a fresh ring", LAMIPEONGA_DONE, create(3));
    set_ring(64, 8, position);
    set_ring(72, 8, position);
    for (int i = 0; i < 4; i++)
        expect_number("filling", LAMIPEONGA_DONE, emit(0, 0, 0, payload, 32));
}

static void full(void)
{
    full_from(0);
}

static uint32_t emit_small(void)
{
    return emit(1, 2, 3, payload, 32);
}

/* a full ring with one number in its pages changed: both calls refuse it so */
static void page_refused(uint32_t wanted, size_t at, int width, uint64_t value)
{
    full();
    set_ring(at, width, value);
    expect_number("emission on a changed page", wanted, emit_small());
    expect_number("inspection of a changed page", wanted, inspect());
}

static void pages(void)
{
    full();
    ring_bytes = 8447;
    expect_number("short", LAMIPEONGA_SHORT, emit_small());
    expect_number("short", LAMIPEONGA_SHORT, inspect());
    for (size_t at = 0; at < 8; at++)
        page_refused(LAMIPEONGA_MAGIC, at, 1, 0);
    page_refused(LAMIPEONGA_VERSION, 8, 4, 2);
    page_refused(LAMIPEONGA_LAYOUT, 16, 8, 0);
    page_refused(LAMIPEONGA_LAYOUT, 16, 8, 128);
    page_refused(LAMIPEONGA_LAYOUT, 16, 8, 384);
    page_refused(LAMIPEONGA_LAYOUT, 16, 8, 2097152);
    page_refused(LAMIPEONGA_LAYOUT, 24, 8, 4096);
    page_refused(LAMIPEONGA_LAYOUT, 32, 8, 0);
    page_refused(LAMIPEONGA_LENGTH, 16, 8, 512);
    page_refused(LAMIPEONGA_POSITION, 72, 8, 257);
    page_refused(LAMIPEONGA_POSITION, 64, 8, 257);
    page_refused(LAMIPEONGA_POSITION, 64, 8, GREATEST);
    full();
    set_ring(64, 8, FARTHEST + 1);
    set_ring(72, 8, FARTHEST + 1);
    expect_number("write above 2^62", LAMIPEONGA_POSITION, inspect());
}

/* every byte that the table shows zero up to 191, one at a time */
static void zero_bytes(void)
{
    static const struct {
        size_t at;
        size_t size;
    } zeros[] = {{14, 2}, {40, 24}, {80, 48}, {132, 60}};
    for (size_t part = 0; part < sizeof zeros / sizeof zeros[0]; part++)
        for (size_t at = zeros[part].at; at < zeros[part].at + zeros[part].size; at++)
            page_refused(LAMIPEONGA_LAYOUT, at, 1, 128);
}

static void records(void)
{
    full();
    set_record(8, 5);
    expect_number("dropped above last", LAMIPEONGA_WRITER, emit_small());
    set_record(8, 1);
    set_record(16, 4);
    expect_number("overwritten above last - dropped", LAMIPEONGA_WRITER, emit_small());
    full();
    set_record(0, GREATEST);
    expect_number("spent", LAMIPEONGA_SPENT, emit_small());
    full();
    set_record(16, 4);
    expect_number("all said to be overwritten", LAMIPEONGA_DISAGREE, emit_small());
}

static void positions(void)
{
    full();
    set_ring(64, 8, FARTHEST - 63);
    set_ring(72, 8, FARTHEST - 63);
    expect_number("a byte too far", LAMIPEONGA_FAR, emit_small());
    set_ring(64, 8, FARTHEST - 64);
    set_ring(72, 8, FARTHEST - 64);
    expect_number("just near enough", LAMIPEONGA_DONE, emit_small());
}

/* a number by its position in the data, over whose end it may go */
static void set_data(uint64_t position, int width, uint64_t value)
{
    for (int i = 0; i < width; i++)
        set_ring(8192 + (position + (uint64_t)i) % 256, 1, value >> (8 * i));
}

/* one number of the oldest event's header changed: both calls refuse it so */
static void event_refused(uint32_t wanted, size_t at, int width, uint64_t value)
{
    full();
    set_data(at, width, value);
    expect_number("emission over a damaged event", wanted, emit_small());
    expect_number("inspection of a damaged event", wanted, inspect());
}

/* values at the edges, and each byte of a field alone */
static void fields(void)
{
    static const uint64_t header_sizes[] = {0, 31, 33, 32 + 256, 65535};
    for (size_t i = 0; i < sizeof header_sizes / sizeof header_sizes[0]; i++)
        event_refused(LAMIPEONGA_DAMAGED_HEADER_SIZE, 4, 2, header_sizes[i]);
    event_refused(LAMIPEONGA_DAMAGED_EVENT_SIZE, 0, 4, 0);
    event_refused(LAMIPEONGA_DAMAGED_EVENT_SIZE, 0, 4, 31);
    event_refused(LAMIPEONGA_DAMAGED_WRITE_POS, 0, 4, 257);
    event_refused(LAMIPEONGA_DAMAGED_WRITE_POS, 0, 4, 65536 + 64);
    event_refused(LAMIPEONGA_DAMAGED_WRITE_POS, 0, 4, 4294967295);
    event_refused(LAMIPEONGA_DAMAGED_CPU_ID, 6, 1, 4);
    event_refused(LAMIPEONGA_DAMAGED_CPU_ID, 7, 1, 1);
    for (size_t at = 29; at < 32; at++) {
        event_refused(LAMIPEONGA_DAMAGED_SPARE, at, 1, 1);
        event_refused(LAMIPEONGA_DAMAGED_SPARE, at, 1, 128);
    }
    full();
    set_data(0, 4, 256);
    expect_number("an event as large as all that is left", LAMIPEONGA_DONE, inspect());
    full();
    set_data(0, 4, 32);
    expect_number("the least event, and payload behind it", LAMIPEONGA_DAMAGED_HEADER_SIZE, inspect());
}

/* a change of a header for each reason but 101, in their order */
static const struct {
    uint32_t answer;
    size_t at;
    int width;
    uint64_t value;
} faults[] = {
    {LAMIPEONGA_DAMAGED_HEADER_SIZE, 4, 2, 33},
    {LAMIPEONGA_DAMAGED_EVENT_SIZE, 0, 4, 31},
    {LAMIPEONGA_DAMAGED_WRITE_POS, 0, 4, 257},
    {LAMIPEONGA_DAMAGED_CPU_ID, 6, 2, 4},
    {LAMIPEONGA_DAMAGED_SPARE, 30, 1, 1},
    {LAMIPEONGA_DAMAGED_SEQUENCE, 8, 8, 0},
};

enum { FAULTS = sizeof faults / sizeof faults[0], BOTH_SIZES = 6 };

/* puts those that a number has a bit for, and answers the first */
static uint32_t put_faults(uint64_t position, unsigned chosen)
{
    uint32_t first = LAMIPEONGA_DONE;
    for (unsigned i = FAULTS; i-- > 0;)
        if (chosen >> i & 1) {
            set_data(position + faults[i].at, faults[i].width, faults[i].value);
            first = faults[i].answer;
        }
    return first;
}

/* some of the faults in the oldest event: the first counts. An emission doesn't look at the sequence, and goes on. */
static void chosen_refused(uint64_t position, unsigned chosen)
{
    full_from(position);
    uint32_t first = put_faults(position, chosen);
    expect_number("inspection of an event with some faults", first, inspect());
    if (first == LAMIPEONGA_DAMAGED_SEQUENCE)
        first = LAMIPEONGA_DONE;
    expect_number("emission over an event with some faults", first, emit_small());
}

/* every choice but those with both sizes, which can't be; also with the header over the data's end, after each of its bytes */
static void several(void)
{
    for (unsigned chosen = 1; chosen < 1u << FAULTS; chosen++)
        for (uint64_t before_end = 0; before_end < 32; before_end++)
            if ((chosen & BOTH_SIZES) != BOTH_SIZES)
                chosen_refused(512 - before_end, chosen);
}

/* in the second, third and fourth event; an emission of half the capacity comes to the second too */
static void later_events(void)
{
    for (uint64_t position = 64; position < 256; position += 64)
        for (unsigned i = 0; i < FAULTS; i++) {
            full();
            uint32_t wanted = put_faults(position, 1u << i);
            expect_number("inspection of a later event", wanted, inspect());
            if (position > 64 || wanted == LAMIPEONGA_DAMAGED_SEQUENCE)
                wanted = LAMIPEONGA_DONE;
            expect_number("emission over two events", wanted, emit(1, 2, 3, payload, 96));
        }
}

/* with fewer than 32 bytes left nothing else counts; with 32 and more the event of 64 bytes runs past write_pos */
static void bytes_left(void)
{
    for (unsigned chosen = 0; chosen < 1u << FAULTS; chosen++)
        for (uint64_t left = 1; left < 32; left++) {
            full();
            put_faults(192, chosen);
            set_ring(64, 8, 192 + left);
            expect_number("fewer than 32 bytes left", LAMIPEONGA_DAMAGED_LEFT, inspect());
        }
    for (uint64_t left = 32; left < 64; left++) {
        full();
        set_ring(64, 8, 192 + left);
        expect_number("fewer bytes left than the event's", LAMIPEONGA_DAMAGED_WRITE_POS, inspect());
    }
    full();
    set_ring(72, 8, 225);
    expect_number("31 bytes left at the tail", LAMIPEONGA_DAMAGED_LEFT, inspect());
    expect_number("an emission doesn't come to them", LAMIPEONGA_DONE, emit_small());
}

/* the second event's sequence, with the first one's */
static void sequence_refused(uint64_t before, uint64_t sequence)
{
    full();
    set_data(8, 8, before);
    set_data(64 + 8, 8, sequence);
    expect_number("a sequence that doesn't rise", LAMIPEONGA_DAMAGED_SEQUENCE, inspect());
    expect_number("an emission doesn't look at it", LAMIPEONGA_DONE, emit(1, 2, 3, payload, 96));
}

static void sequences(void)
{
    sequence_refused(1, 1);
    sequence_refused(2, 1);
    sequence_refused(2, 0);
    sequence_refused(256, 255);
    sequence_refused(GREATEST, GREATEST);
    sequence_refused(GREATEST, GREATEST - 1);
    sequence_refused(GREATEST, 0);
    full();
    set_data(8, 8, 0);
    expect_number("the first sequence is 0", LAMIPEONGA_DAMAGED_SEQUENCE, inspect());
    full();
    set_data(192 + 8, 8, GREATEST);
    expect_number("the highest sequence", LAMIPEONGA_DONE, inspect());
}

static void events(void)
{
    fields();
    several();
    later_events();
    bytes_left();
    sequences();
}

static void sizes(void)
{
    static const size_t wrong[] = {0, 1, 8191, 8192, 8193, 8320, 8447, 8449, 8576, 8703, 8705, 8192 + 3 * 256, 8192 + 1048577};
    for (size_t i = 0; i < sizeof wrong / sizeof wrong[0]; i++) {
        lend(wrong[i], 0);
        expect_number("a length that no ring has", LAMIPEONGA_SIZE, create(3));
    }
    for (size_t capacity = LAMIPEONGA_LEAST_CAPACITY; capacity <= LAMIPEONGA_LARGEST_CAPACITY; capacity *= 2) {
        lend(LAMIPEONGA_RING_BYTES(capacity), 0);
        expect_number("a length that a ring has", LAMIPEONGA_DONE, create(65535));
        expect_number("a fresh ring inspected", LAMIPEONGA_DONE, inspect());
    }
}

static void record_lengths(void)
{
    static const size_t wrong[] = {0, 1, 8, 16, 23, 25, 32, 48};
    for (size_t i = 0; i < sizeof wrong / sizeof wrong[0]; i++) {
        full();
        record_bytes = wrong[i];
        expect_number("a record that isn't 24 bytes", LAMIPEONGA_RECORD, emit_small());
        ring_bytes = 0;
        expect_number("asked before all else", LAMIPEONGA_RECORD, emit_small());
    }
}

unsigned run_refusals(void)
{
    unsigned met = 0;
    memset(answered, 0, sizeof answered);
    pages();
    zero_bytes();
    records();
    positions();
    events();
    sizes();
    record_lengths();
    for (unsigned number = 0; number < ANSWERS; number++) {
        int by_other_calls = number >= LAMIPEONGA_READER && number <= LAMIPEONGA_GENERATION;
        int refused = is_refusal(number) && !by_other_calls;
        expect((answered[number] != 0) == (refused || number == LAMIPEONGA_DONE), "a number that wasn't met, or can't be");
        met += refused && answered[number] != 0;
    }
    return met;
}

/* need_wake as found, the answer, and futex_counter before and after */
static void woken(uint8_t need_wake, uint32_t wanted, uint64_t before, uint64_t after)
{
    full();
    set_ring(LAMIPEONGA_NEED_WAKE_AT, 1, need_wake);
    set_ring(LAMIPEONGA_FUTEX_COUNTER_AT, 4, before);
    expect_number("need_wake", wanted, emit_small());
    expect_number("futex_counter", after, number_at(ring[ARCHIVE] + LAMIPEONGA_FUTEX_COUNTER_AT, 4));
    expect_number("need_wake stays", need_wake, ring[ARCHIVE][LAMIPEONGA_NEED_WAKE_AT]);
    expect_number("no wake for a dropped event", LAMIPEONGA_DROPPED, emit(1, 2, 3, payload, 97));
    expect_number("futex_counter stays", after, number_at(ring[ARCHIVE] + LAMIPEONGA_FUTEX_COUNTER_AT, 4));
    expect_number("need_wake stays after it", need_wake, ring[ARCHIVE][LAMIPEONGA_NEED_WAKE_AT]);
}

/* every value but 0 asks for a wake, and the highest counter goes to 0 */
static void flags(void)
{
    static const uint8_t asking[] = {1, 2, 255};
    woken(0, LAMIPEONGA_DONE, 41, 41);
    woken(0, LAMIPEONGA_DONE, 4294967295, 4294967295);
    for (size_t i = 0; i < sizeof asking / sizeof asking[0]; i++) {
        woken(asking[i], LAMIPEONGA_WAKE, 41, 42);
        woken(asking[i], LAMIPEONGA_WAKE, 4294967295, 0);
    }
}

static void empty_buffers(void)
{
    full();
    expect_number("no payload", LAMIPEONGA_DONE, emit(1, 2, 3, NULL, 0));
    expect_number("no record", LAMIPEONGA_RECORD, lamipeonga_emit(NULL, 0, NULL, 0, 0, 0, 0, NULL, 0));
    expect_number("no ring to inspect", LAMIPEONGA_SHORT, lamipeonga_inspect(NULL, 0));
    expect_number("no buffer to make a ring", LAMIPEONGA_SIZE, lamipeonga_create(NULL, 0, 0));
}

void run_edges(void)
{
    flags();
    empty_buffers();
}
