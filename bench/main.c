/*
 * The measured calls. Each is made twice on the same bytes, first by the archives, then by plain.c, and everything that the two left is compared.
 * For each pair one line is printed: what was called, on what, the bytes that it copies or makes, the events that it looks at or passes, and of a swap the
 * bytes kept. bench/run lays the counts beside it. The first line has addresses.
 * Ends with 1 if anything differs: counts of unequal work would say nothing.
 */
#include "lamipeonga.h"
#include "plain.h"
#include "prepare.h"

#include <stdio.h>
#include <string.h>

uint32_t bench_read(const uint8_t *ring, size_t ring_bytes, uint8_t *record, size_t record_bytes, uint8_t *out, size_t out_bytes);
uint32_t bench_copy(const uint8_t *ring, size_t ring_bytes, uint8_t *record, size_t record_bytes, uint8_t *slip, size_t slip_bytes, uint8_t *out,
                    size_t out_bytes);
uint32_t bench_confirm(const uint8_t *ring, size_t ring_bytes, uint8_t *record, size_t record_bytes, const uint8_t *slip, size_t slip_bytes);
uint32_t bench_swap(uint8_t *old, size_t old_bytes, uint8_t *new, size_t new_bytes, uint8_t *record, size_t record_bytes);
uint32_t bench_record(const uint8_t *ring, size_t ring_bytes, uint64_t placed, uint8_t *out, size_t out_bytes);
uint64_t bench_verify(const uint8_t *ring, size_t ring_bytes, const uint8_t *file, size_t file_bytes);
uint64_t bench_listen(const uint8_t *file, size_t file_bytes, uint64_t size);

enum { ARCHIVE, PLAIN, PREPARED };

#define LARGEST (8192 + 1048576)
#define CPU_ID 3
#define TIMESTAMP 0x0102030405060708
#define EVENT_TYPE 0x0A0B0C0D
#define ORIGIN_CLASS 7
#define DATA_OFFSET 8192
/* the recording's opening, and what comes before and behind the events together */
#define OPENING_BYTES 8
#define ENDS_BYTES 32
/* what bench_confirm answers where the event has gone */
#define AGAIN 1003
/* from where on bench_record tells how many bytes it put */
#define PUT 2000
/* and bench_verify the first place that differs */
#define DIFFERS 2000

static uint8_t ring[3][LARGEST];
static uint8_t new_ring[2][LARGEST];
static uint8_t record[3][24];
static uint8_t reader[2][32];
static uint8_t slip[2][32];
static uint8_t out[2][2048];
/* longer than any payload: with 4,096 the rings would lie whole pages behind it, from where the C library copies in another order */
static uint8_t payload[5120];
static size_t ring_bytes;
static unsigned long differences;

/* The compiler places it before the buffers, so that with it they too lie at one place of their 64 bytes whatever the program's length:
   from another place on the C library's copies take another number of instructions. */
static _Alignas(64) volatile unsigned long ended;
void call_ended(void);

/* where valgrind ends what it counts together; by its address a log of addresses is read */
__attribute__((noinline)) void call_ended(void)
{
    ended++;
}

static uint64_t number_at(const uint8_t *at)
{
    uint64_t value;

    memcpy(&value, at, sizeof value);
    return value;
}

/* an empty ring, and its record */
static void fresh(size_t capacity)
{
    ring_bytes = LAMIPEONGA_RING_BYTES(capacity);
    prepare_create(ring[PREPARED], ring_bytes, CPU_ID);
    memset(record[PREPARED], 0, sizeof record[PREPARED]);
}

/* the same with both positions elsewhere */
static void fresh_at(size_t capacity, uint64_t position)
{
    fresh(capacity);
    memcpy(ring[PREPARED] + 64, &position, sizeof position);
    memcpy(ring[PREPARED] + 72, &position, sizeof position);
}

static size_t event_bytes(size_t payload_bytes)
{
    return LAMIPEONGA_HEADER_BYTES + payload_bytes;
}

/* how many events of one size go in with none passed */
static unsigned long fitting(size_t capacity, size_t payload_bytes)
{
    return capacity / event_bytes(payload_bytes);
}

static unsigned long add(size_t payload_bytes, unsigned long events)
{
    for (unsigned long i = 0; i < events; i++)
        prepare_emit(ring[PREPARED], ring_bytes, record[PREPARED], sizeof record[PREPARED], 1, 1, 1, payload, payload_bytes);
    return events;
}

/* from a position on, as many events of one size as fit */
static unsigned long fill_at(size_t capacity, size_t payload_bytes, uint64_t position)
{
    fresh_at(capacity, position);
    return add(payload_bytes, fitting(capacity, payload_bytes));
}

/* the same up to a position: where the next event goes is then the same whatever bytes are left over */
static unsigned long fill_up_to(size_t capacity, size_t payload_bytes, uint64_t position)
{
    return fill_at(capacity, payload_bytes, position - fitting(capacity, payload_bytes) * event_bytes(payload_bytes));
}

static unsigned long fill(size_t capacity, size_t payload_bytes)
{
    return fill_at(capacity, payload_bytes, 0);
}

/* about half of the ring lies behind the data's end, and just half of the event that goes over it */
static unsigned long fill_over_the_end(size_t capacity)
{
    return fill_at(capacity, 96, capacity / 2 + 64);
}

/* where an event begins of which half lies behind the data's end: with no payload half of its header does */
static size_t half_before_end(size_t capacity, size_t payload_bytes)
{
    return capacity - event_bytes(payload_bytes) / 2;
}

/* what was prepared, to both */
static void hand_to_both(void)
{
    for (int who = ARCHIVE; who <= PLAIN; who++) {
        memcpy(ring[who], ring[PREPARED], ring_bytes);
        memcpy(record[who], record[PREPARED], sizeof record[who]);
    }
}

/* what a call doesn't write then shows; by words, since the C library's memset takes an instruction, and the emulator's log a line, for each byte */
static void spoil(void *buffers, size_t bytes)
{
    static const uint64_t word = 0xE1E2E3E4E5E6E7E8;
    uint8_t *to = buffers;

    for (size_t at = 0; at + sizeof word <= bytes; at += sizeof word)
        memcpy(to + at, &word, sizeof word);
}

static void same(const char *group, const void *a, const void *b, size_t bytes)
{
    if (memcmp(a, b, bytes) == 0)
        return;
    printf("differs: %s\n", group);
    differences++;
}

static void same_answer(const char *group, uint32_t wanted, uint32_t archive, uint32_t plain)
{
    if (archive == wanted && plain == wanted)
        return;
    printf("differs: %s answers %u and %u, not %u\n", group, archive, plain, wanted);
    differences++;
}

static void measure_emit(const char *group, size_t capacity, size_t payload_bytes)
{
    uint64_t overwritten = number_at(record[PREPARED] + 16);
    uint32_t answer[2];

    hand_to_both();
    answer[ARCHIVE] = lamipeonga_emit(ring[ARCHIVE], ring_bytes, record[ARCHIVE], sizeof record[ARCHIVE], TIMESTAMP, EVENT_TYPE, ORIGIN_CLASS, payload,
                                      payload_bytes);
    call_ended();
    answer[PLAIN] =
        plain_emit(ring[PLAIN], ring_bytes, record[PLAIN], sizeof record[PLAIN], TIMESTAMP, EVENT_TYPE, ORIGIN_CLASS, payload, payload_bytes);
    call_ended();
    same_answer(group, LAMIPEONGA_DONE, answer[ARCHIVE], answer[PLAIN]);
    same(group, ring[ARCHIVE], ring[PLAIN], ring_bytes);
    same(group, record[ARCHIVE], record[PLAIN], sizeof record[PLAIN]);
    printf("%s|capacity %zu, payload %zu|%zu|%lu\n", group, capacity, payload_bytes,
           event_bytes(payload_bytes), (unsigned long)(number_at(record[ARCHIVE] + 16) - overwritten));
}

static void measure_inspect(const char *group, size_t capacity, unsigned long events)
{
    uint32_t answer[2];

    hand_to_both();
    answer[ARCHIVE] = lamipeonga_inspect(ring[ARCHIVE], ring_bytes);
    call_ended();
    answer[PLAIN] = plain_inspect(ring[PLAIN], ring_bytes);
    call_ended();
    same_answer(group, LAMIPEONGA_DONE, answer[ARCHIVE], answer[PLAIN]);
    same(group, ring[ARCHIVE], ring[PREPARED], ring_bytes);
    printf("%s|capacity %zu, %lu events|0|%lu\n", group, capacity, events, events);
}

/* for both a reader that was attached when the tail stood there */
static void attach(uint64_t tail)
{
    memset(reader, 0, sizeof reader);
    for (int who = ARCHIVE; who <= PLAIN; who++) {
        memcpy(reader[who], &tail, sizeof tail);
        reader[who][24] = 1;
    }
}

/* the first event, by an attached reader that stands there */
static void measure_read(const char *group, size_t capacity, size_t payload_bytes)
{
    uint32_t answer[2];

    hand_to_both();
    attach(number_at(ring[PREPARED] + 72));
    memset(out, 0xEE, sizeof out);
    answer[ARCHIVE] = bench_read(ring[ARCHIVE], ring_bytes, reader[ARCHIVE], sizeof reader[ARCHIVE], out[ARCHIVE], sizeof out[ARCHIVE]);
    call_ended();
    answer[PLAIN] = plain_read(ring[PLAIN], ring_bytes, reader[PLAIN], sizeof reader[PLAIN], out[PLAIN], sizeof out[PLAIN]);
    call_ended();
    same_answer(group, LAMIPEONGA_DONE, answer[ARCHIVE], answer[PLAIN]);
    same(group, reader[ARCHIVE], reader[PLAIN], sizeof reader[PLAIN]);
    same(group, out[ARCHIVE], out[PLAIN], sizeof out[PLAIN]);
    printf("%s|capacity %zu, payload %zu|%zu|1\n", group, capacity, payload_bytes, event_bytes(payload_bytes));
}

/* the same event copied: the record stays, and a slip is written */
static void measure_copy(const char *group, size_t capacity, size_t payload_bytes)
{
    uint32_t answer[2];

    hand_to_both();
    attach(number_at(ring[PREPARED] + 72));
    memset(slip, 0xEE, sizeof slip);
    memset(out, 0xEE, sizeof out);
    answer[ARCHIVE] = bench_copy(ring[ARCHIVE], ring_bytes, reader[ARCHIVE], sizeof reader[ARCHIVE], slip[ARCHIVE], sizeof slip[ARCHIVE], out[ARCHIVE],
                                 sizeof out[ARCHIVE]);
    call_ended();
    answer[PLAIN] =
        plain_copy(ring[PLAIN], ring_bytes, reader[PLAIN], sizeof reader[PLAIN], slip[PLAIN], sizeof slip[PLAIN], out[PLAIN], sizeof out[PLAIN]);
    call_ended();
    same_answer(group, LAMIPEONGA_DONE, answer[ARCHIVE], answer[PLAIN]);
    same(group, reader[ARCHIVE], reader[PLAIN], sizeof reader[PLAIN]);
    same(group, slip[ARCHIVE], slip[PLAIN], sizeof slip[PLAIN]);
    same(group, out[ARCHIVE], out[PLAIN], sizeof out[PLAIN]);
    printf("%s|capacity %zu, payload %zu|%zu|1\n", group, capacity, payload_bytes, event_bytes(payload_bytes));
}

/* the slip of a ring's first event confirmed, after so many further emissions */
static void measure_confirm(const char *group, size_t capacity, size_t payload_bytes, unsigned long emissions, uint32_t wanted)
{
    uint64_t tail = number_at(ring[PREPARED] + 72);
    uint64_t copied[4] = {tail, event_bytes(payload_bytes), 1, tail};
    uint32_t answer[2];

    add(payload_bytes, emissions);
    hand_to_both();
    attach(tail);
    for (int who = ARCHIVE; who <= PLAIN; who++)
        memcpy(slip[who], copied, sizeof copied);
    answer[ARCHIVE] = bench_confirm(ring[ARCHIVE], ring_bytes, reader[ARCHIVE], sizeof reader[ARCHIVE], slip[ARCHIVE], sizeof slip[ARCHIVE]);
    call_ended();
    answer[PLAIN] = plain_confirm(ring[PLAIN], ring_bytes, reader[PLAIN], sizeof reader[PLAIN], slip[PLAIN], sizeof slip[PLAIN]);
    call_ended();
    same_answer(group, wanted, answer[ARCHIVE], answer[PLAIN]);
    same(group, reader[ARCHIVE], reader[PLAIN], sizeof reader[PLAIN]);
    same(group, slip[ARCHIVE], slip[PLAIN], sizeof slip[PLAIN]);
    printf("%s|capacity %zu, payload %zu, %lu emitted since|0|0\n", group, capacity, payload_bytes, emissions);
}

static void measure_create(const char *group, size_t capacity)
{
    uint32_t answer[2];

    ring_bytes = LAMIPEONGA_RING_BYTES(capacity);
    spoil(ring, sizeof ring);
    answer[ARCHIVE] = lamipeonga_create(ring[ARCHIVE], ring_bytes, CPU_ID);
    call_ended();
    answer[PLAIN] = plain_create(ring[PLAIN], ring_bytes, CPU_ID);
    call_ended();
    same_answer(group, LAMIPEONGA_DONE, answer[ARCHIVE], answer[PLAIN]);
    same(group, ring[ARCHIVE], ring[PLAIN], sizeof ring[PLAIN]);
    printf("%s|capacity %zu|%zu|0\n", group, capacity, ring_bytes);
}

static void measure_swap(const char *group, size_t capacity, size_t new_capacity, unsigned long events)
{
    size_t new_bytes = LAMIPEONGA_RING_BYTES(new_capacity);
    size_t kept;
    uint32_t answer[2];

    hand_to_both();
    spoil(new_ring, sizeof new_ring);
    answer[ARCHIVE] = bench_swap(ring[ARCHIVE], ring_bytes, new_ring[ARCHIVE], new_bytes, record[ARCHIVE], sizeof record[ARCHIVE]);
    call_ended();
    answer[PLAIN] = plain_swap(ring[PLAIN], ring_bytes, new_ring[PLAIN], new_bytes, record[PLAIN], sizeof record[PLAIN]);
    call_ended();
    same_answer(group, LAMIPEONGA_DONE, answer[ARCHIVE], answer[PLAIN]);
    same(group, ring[ARCHIVE], ring[PLAIN], ring_bytes);
    same(group, new_ring[ARCHIVE], new_ring[PLAIN], sizeof new_ring[PLAIN]);
    same(group, record[ARCHIVE], record[PLAIN], sizeof record[PLAIN]);
    kept = (size_t)number_at(new_ring[PLAIN] + 64);
    printf("%s|capacity %zu to %zu, %lu events, %zu bytes kept|%zu|%lu|%zu\n", group, capacity, new_capacity, events, kept, new_bytes, events, kept);
}

/* the bytes between tail and write */
static size_t bytes_held(void)
{
    return (size_t)(number_at(ring[PREPARED] + 64) - number_at(ring[PREPARED] + 72));
}

/* the recording's bytes from `placed` on, as many as `room` takes; the new rings' buffers are the output */
static void measure_record(const char *group, const char *piece, unsigned long events, uint64_t placed, size_t room)
{
    size_t left = bytes_held() + ENDS_BYTES - (size_t)placed;
    size_t bytes = left < room ? left : room;
    uint32_t answer[2];

    hand_to_both();
    spoil(new_ring, sizeof new_ring);
    answer[ARCHIVE] = bench_record(ring[ARCHIVE], ring_bytes, placed, new_ring[ARCHIVE], room);
    call_ended();
    answer[PLAIN] = plain_record(ring[PLAIN], ring_bytes, placed, new_ring[PLAIN], room);
    call_ended();
    same_answer(group, PUT + (uint32_t)bytes, answer[ARCHIVE], answer[PLAIN]);
    same(group, ring[ARCHIVE], ring[PREPARED], ring_bytes);
    same(group, ring[PLAIN], ring[PREPARED], ring_bytes);
    same(group, new_ring[ARCHIVE], new_ring[PLAIN], sizeof new_ring[PLAIN]);
    printf("%s|capacity %zu, %lu events in %zu bytes: %zu put%s|%zu|%lu\n", group, ring_bytes - DATA_OFFSET, events, bytes_held(), bytes, piece, bytes, events);
}

/* a file, in the new ring's buffer, held against the ring; as many of its bytes are compared as agree, and the one that doesn't */
static void measure_verify(const char *group, const char *where, const char *which, unsigned long events, size_t file_bytes, uint64_t wanted)
{
    size_t compared = wanted == LAMIPEONGA_DONE ? file_bytes : (size_t)(wanted - DIFFERS) + 1;
    uint64_t answer[2];

    hand_to_both();
    answer[ARCHIVE] = bench_verify(ring[ARCHIVE], ring_bytes, new_ring[PLAIN], file_bytes);
    call_ended();
    answer[PLAIN] = plain_verify(ring[PLAIN], ring_bytes, new_ring[PLAIN], file_bytes);
    call_ended();
    same_answer(group, (uint32_t)wanted, (uint32_t)answer[ARCHIVE], (uint32_t)answer[PLAIN]);
    same(group, ring[ARCHIVE], ring[PREPARED], ring_bytes);
    printf("%s|capacity %zu, %lu events%s: a recording of %zu bytes, %s|%zu|%lu\n", group, ring_bytes - DATA_OFFSET, events, where, file_bytes, which, compared,
           events);
}

/* the recording of the ring prepared, in the new ring's buffer, listened to in pieces */
static void measure_listen(const char *group, size_t payload_bytes, unsigned long events, uint64_t size)
{
    size_t file_bytes = bytes_held() + ENDS_BYTES;
    uint64_t sum[2];

    prepare_record(ring[PREPARED], ring_bytes, 0, new_ring[PLAIN], file_bytes);
    sum[ARCHIVE] = bench_listen(new_ring[PLAIN], file_bytes, size);
    call_ended();
    sum[PLAIN] = plain_listen(new_ring[PLAIN], file_bytes, size);
    call_ended();
    same(group, &sum[ARCHIVE], &sum[PLAIN], sizeof sum[PLAIN]);
    printf("%s|payload %zu, %lu events, pieces of %lu|%zu|%lu\n", group, payload_bytes, events, (unsigned long)size, file_bytes, events);
}

static const size_t payloads[] = {0, 32, 96, 1000};

#define EACH(i, list) (size_t i = 0; i < sizeof list / sizeof list[0]; i++)

static void emissions(size_t capacity)
{
    for EACH (i, payloads) {
        fresh(capacity);
        measure_emit("emit, room", capacity, payloads[i]);
    }
    for EACH (i, payloads) {
        fill_up_to(capacity, payloads[i], capacity);
        measure_emit("emit, full, one passed", capacity, payloads[i]);
    }
    for EACH (i, payloads) {
        fill(capacity, 0);
        measure_emit("emit, full of 32 bytes each", capacity, payloads[i]);
    }
    for EACH (i, payloads) {
        fresh_at(capacity, half_before_end(capacity, payloads[i]));
        measure_emit("emit, room, half behind the data's end", capacity, payloads[i]);
    }
    /* where no byte is left over the event passed lies there too, and with no payload half of its header */
    for EACH (i, payloads) {
        fill_up_to(capacity, payloads[i], capacity + half_before_end(capacity, payloads[i]));
        measure_emit("emit, full, half behind the data's end", capacity, payloads[i]);
    }
}

static void readings(size_t capacity)
{
    for EACH (i, payloads) {
        fill(capacity, payloads[i]);
        measure_read("read", capacity, payloads[i]);
    }
    for EACH (i, payloads) {
        fill_at(capacity, payloads[i], half_before_end(capacity, payloads[i]));
        measure_read("read, half behind the data's end", capacity, payloads[i]);
    }
}

static void copies(size_t capacity)
{
    for EACH (i, payloads) {
        fill(capacity, payloads[i]);
        measure_copy("copy", capacity, payloads[i]);
    }
    for EACH (i, payloads) {
        fill_at(capacity, payloads[i], half_before_end(capacity, payloads[i]));
        measure_copy("copy, half behind the data's end", capacity, payloads[i]);
    }
}

/* in a full ring the first emission takes the oldest event's place */
static void confirmations(size_t capacity)
{
    fresh(capacity);
    add(32, 1);
    measure_confirm("confirm, done", capacity, 32, 0, LAMIPEONGA_DONE);
    fresh(capacity);
    add(32, 1);
    measure_confirm("confirm, done", capacity, 32, 1, LAMIPEONGA_DONE);
    fill(capacity, 32);
    measure_confirm("confirm, again", capacity, 32, 1, AGAIN);
}

static void inspections(size_t capacity)
{
    fresh(capacity);
    measure_inspect("inspect", capacity, 0);
    measure_inspect("inspect", capacity, fill(capacity, 0));
    measure_inspect("inspect", capacity, fill(capacity, 96));
    measure_inspect("inspect, the first header half behind the data's end", capacity, fill_at(capacity, 0, half_before_end(capacity, 0)));
}

static void creations(void)
{
    measure_create("create", 256);
    measure_create("create", 65536);
    measure_create("create", 1048576);
}

static void swaps(size_t capacity)
{
    fresh(capacity);
    measure_swap("swap", capacity, capacity, 0);
    measure_swap("swap", capacity, capacity, fill(capacity, 96));
    /* as many events twice, the second time four times as large: what a further byte kept takes */
    fresh(capacity);
    measure_swap("swap", capacity, capacity, add(96, fitting(capacity, 480)));
    measure_swap("swap", capacity, capacity, fill(capacity, 480));
    measure_swap("swap", capacity, capacity / 4, fill(capacity, 96));
    measure_swap("swap", capacity, capacity * 4, fill(capacity, 96));
    measure_swap("swap, over the data's end", capacity, capacity, fill_over_the_end(capacity));
}

/* the whole in one piece, and one inspection of the same ring to set beside it and what follows */
static void record_whole(const char *piece, unsigned long events)
{
    measure_inspect("beside record", ring_bytes - DATA_OFFSET, events);
    measure_record("record", piece, events, 0, bytes_held() + ENDS_BYTES);
}

static void record_pieces(unsigned long events)
{
    static const size_t rooms[] = {1, 32, 1023, 1024};

    record_whole(", the whole", events);
    for EACH (i, rooms)
        measure_record("record", " from the middle", events, OPENING_BYTES + bytes_held() / 2, rooms[i]);
    measure_record("record", ", all placed before", events, bytes_held() + ENDS_BYTES, 1024);
}

/* half of each piece, and half of an event, lie behind the data's end */
static void record_over_the_end(size_t capacity)
{
    static const size_t rooms[] = {32, 1024};
    unsigned long events = fill_over_the_end(capacity);
    size_t before_end = capacity - (size_t)number_at(ring[PREPARED] + 72);

    record_whole(", the whole, over the data's end", events);
    for EACH (i, rooms)
        measure_record("record", " over the data's end", events, OPENING_BYTES + before_end - rooms[i] / 2, rooms[i]);
}

static void recordings(size_t small, size_t large)
{
    fresh(small);
    record_whole(", the whole", 0);
    record_whole(", the whole", fill(small, 0));
    record_whole(", the whole", fill(small, 96));
    record_pieces(fill(large, 96));
    record_pieces(fill(large, 4064));
    record_over_the_end(large);
}

/* the ring's own recording, and with another byte first, last and behind its end */
static void verify_ring(const char *where, unsigned long events)
{
    uint8_t *file = new_ring[PLAIN];
    size_t file_bytes = bytes_held() + ENDS_BYTES;

    measure_inspect("beside verify", ring_bytes - DATA_OFFSET, events);
    prepare_record(ring[PREPARED], ring_bytes, 0, file, file_bytes);
    measure_verify("verify", where, "equal", events, file_bytes, LAMIPEONGA_DONE);
    file[0] ^= 1;
    measure_verify("verify", where, "the first byte differs", events, file_bytes, DIFFERS);
    file[0] ^= 1;
    file[file_bytes - 1] ^= 1;
    measure_verify("verify", where, "the last byte differs", events, file_bytes, DIFFERS + file_bytes - 1);
    file[file_bytes - 1] ^= 1;
    measure_verify("verify", where, "one byte longer", events, file_bytes + 1, DIFFERS + file_bytes);
}

static void verifications(size_t capacity)
{
    verify_ring("", fill(capacity, 0));
    verify_ring("", fill(capacity, 96));
    verify_ring(" over the data's end", fill_over_the_end(capacity));
}

/* small pieces of a small file, since every byte of them is counted; large ones of a file that has many of them */
static void listenings(size_t small, size_t large)
{
    static const uint64_t sizes[] = {1, 16, 64};

    for EACH (i, payloads) {
        unsigned long events = fill(small, payloads[i]);

        for EACH (k, sizes)
            measure_listen("listen", payloads[i], events, sizes[k]);
        measure_listen("listen", payloads[i], fill(large, payloads[i]), 4096);
    }
}

static void growth(void)
{
    for (size_t capacity = 256; capacity <= 1048576; capacity *= 4) {
        unsigned long events;

        fresh(capacity);
        measure_emit("growth: emit, room", capacity, 32);
        events = fill(capacity, 32);
        measure_emit("growth: emit, full", capacity, 32);
        measure_read("growth: read", capacity, 32);
        measure_inspect("growth: inspect", capacity, events);
    }
}

/* where the mark and the calls stand, for a log of addresses */
static void print_marks(void)
{
    printf("%016lx", (unsigned long)call_ended);
    printf(" %016lx %016lx %016lx %016lx %016lx", (unsigned long)lamipeonga_create, (unsigned long)lamipeonga_emit, (unsigned long)lamipeonga_inspect,
           (unsigned long)bench_read, (unsigned long)bench_swap);
    printf(" %016lx %016lx %016lx %016lx %016lx", (unsigned long)bench_record, (unsigned long)bench_listen, (unsigned long)bench_copy,
           (unsigned long)bench_confirm, (unsigned long)bench_verify);
    printf(" %016lx %016lx %016lx %016lx %016lx", (unsigned long)plain_create, (unsigned long)plain_emit, (unsigned long)plain_inspect,
           (unsigned long)plain_read, (unsigned long)plain_swap);
    printf(" %016lx %016lx %016lx %016lx %016lx\n", (unsigned long)plain_record, (unsigned long)plain_listen, (unsigned long)plain_copy,
           (unsigned long)plain_confirm, (unsigned long)plain_verify);
}

int main(void)
{
    print_marks();
    for (size_t i = 0; i < sizeof payload; i++)
        payload[i] = (uint8_t)(i * 7 + 1);
    /* the first calls also find memcpy and memset in the C library */
    fill(4096, 32);
    measure_emit("warm", 4096, 1000);
    measure_inspect("warm", 4096, 64);
    measure_read("warm", 4096, 32);
    measure_create("warm", 256);
    fill(4096, 32);
    measure_swap("warm", 4096, 4096, 64);
    measure_record("warm", ", the whole", 64, 0, sizeof new_ring[0]);
    measure_listen("warm", 32, 64, 1);
    measure_verify("warm", "", "equal", 64, bytes_held() + ENDS_BYTES, LAMIPEONGA_DONE);
    fill(4096, 32);
    measure_copy("warm", 4096, 32);
    measure_confirm("warm", 4096, 32, 0, LAMIPEONGA_DONE);

    emissions(4096);
    readings(4096);
    copies(4096);
    confirmations(4096);
    inspections(4096);
    creations();
    swaps(65536);
    recordings(4096, 65536);
    verifications(4096);
    verifications(1048576);
    listenings(16384, 262144);
    growth();
    return differences != 0;
}
