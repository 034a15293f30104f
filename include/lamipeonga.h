/*
 * Lamipeonga: the event ring of the start console, as the firmware calls it.
 *
 * Link target/staticlib/libconsole.a. It is for x86-64 with the System V calling convention, allocates nothing, keeps no state of its own, calls
 * memset and nothing else from outside, and never stops the caller: whatever the buffers hold, each call ends and answers one number.
 *
 * Buffers. Each is passed as a pointer and a length in bytes, and the length is exact: nothing outside it is read or written.
 *   - A null pointer goes only with the length 0. No alignment is asked.
 *   - Ring, record and payload of one call must not overlap.
 *   - A ring is one buffer of 8,192 + capacity bytes, LAMIPEONGA_RING_BYTES(capacity); a capacity is a power of two from 256 to 1,048,576.
 *   - While a call runs, nobody else writes its buffers. There are no barriers in here: a consumer on another processor needs the caller's.
 *
 * The calls, in order; examples/firmware.c is such a program.
 *   1. lamipeonga_create, once, and beside it a record of LAMIPEONGA_RECORD_BYTES zero bytes. A ring created anew wants its record zero again.
 *   2. lamipeonga_emit for each event, every time with that same record, as the call before left it.
 *   3. lamipeonga_inspect at any time between two calls: it changes nothing.
 *
 * What to do with an answer.
 *   - DONE: go on.
 *   - WAKE: the event is stored. Wake whoever waits at LAMIPEONGA_FUTEX_COUNTER_AT, which the call has moved already, and go on.
 *   - DROPPED: count it, report it and go on. The same event would be dropped again; the number that it used up shows readers the gap.
 *   - 1 to 17 without 10 and 12, and 101 to 107, refused: stop and report the number. No byte has changed, and the same call would be refused again.
 *       SHORT, LENGTH, SIZE, RECORD: look at the lengths passed first.
 *       MAGIC, VERSION, LAYOUT, POSITION, WRITER, DISAGREE and the seven DAMAGED: no ring was created here, the record is another ring's, or
 *       someone else wrote into ring or record.
 *       SPENT, FAR: numbers or positions have run out. Keep the ring for its readers and create another.
 * That older events were overwritten is no answer of its own: the record counts them.
 *
 * One writer at a time. lamipeonga_emit gets the record that the call before left, and between calls nobody changes the ring but for the bytes
 * 4096 to 8191, which are the consumer's. Calls for different rings may run at the same time.
 *
 * All numbers in ring and record are little-endian.
 */
#ifndef LAMIPEONGA_H
#define LAMIPEONGA_H

#include <stddef.h>
#include <stdint.h>

#ifdef __cplusplus
extern "C" {
#endif

/*
 * of this header: MAJOR goes up when a caller must be changed, MINOR when something is only added
 *   3.0  LAMIPEONGA_NO_ROOM has gone: no call has ever answered 12, and none will
 *   2.0  101 to 107 in place of 10, which is never answered any more: whoever compared with LAMIPEONGA_DAMAGED now compares with these seven
 *   1.1  WAKE at every need_wake but 0; in 1.0 at 1 alone
 */
#define LAMIPEONGA_VERSION_MAJOR 3
#define LAMIPEONGA_VERSION_MINOR 0

/* of a ring's bytes: the number at offset 8, 4 bytes; any other is refused, see LAMIPEONGA_VERSION below */
#define LAMIPEONGA_FORMAT_VERSION 1

/* what a call answers; a refusal (1 to 17 without 10 and 12, and 101 to 107) has changed no byte of any buffer */
enum lamipeonga_answer {
    LAMIPEONGA_DONE = 0,

    /* the ring can't be taken for one (lamipeonga_emit, lamipeonga_inspect), asked in this order */
    LAMIPEONGA_SHORT = 1,    /* under 8,448 bytes */
    LAMIPEONGA_MAGIC = 2,    /* doesn't begin with 4B 4D 45 53 52 49 4E 47 */
    LAMIPEONGA_VERSION = 3,  /* the version isn't 1 */
    LAMIPEONGA_LAYOUT = 4,   /* capacity, data offset or generation not allowed, or a byte up to 191 that is to be zero isn't */
    LAMIPEONGA_LENGTH = 5,   /* not 8,192 + capacity bytes */
    LAMIPEONGA_POSITION = 6, /* tail above write, more than the capacity between them, or write above 2^62 */

    /* lamipeonga_emit */
    LAMIPEONGA_WRITER = 7,    /* the record's counts can't be right: dropped above last, or overwritten above last - dropped */
    LAMIPEONGA_SPENT = 8,     /* no sequence is left: last is 2^64 - 1 */
    LAMIPEONGA_FAR = 9,       /* the event would end above position 2^62 */
    /* 10 is never answered: 101 to 107 below say more */
    LAMIPEONGA_DISAGREE = 11, /* ring and record can't both be right: more events would be overwritten than the record says were stored */

    /* 12 is unused, and stays so: it was NO ROOM, which an event that isn't dropped can't meet */

    /* never answered by the three calls below: they stand for the whole table */
    LAMIPEONGA_READER = 13,
    LAMIPEONGA_OUT = 14,
    LAMIPEONGA_GENERATION = 15,

    LAMIPEONGA_SIZE = 16,   /* lamipeonga_create: the buffer's length is not that of a ring */
    LAMIPEONGA_RECORD = 17, /* lamipeonga_emit: the record isn't 24 bytes; asked before all else */

    LAMIPEONGA_DROPPED = 20, /* lamipeonga_emit: the event is larger than half the capacity; counted in the record, the ring untouched */
    LAMIPEONGA_WAKE = 21,    /* lamipeonga_emit: done, and the consumer waits: futex_counter went up, wake it */

    /*
     * An event met is bad, and this is why: 100 + the reason. They are asked in this order, and the first one that holds counts.
     * lamipeonga_inspect answers 101 to 107. lamipeonga_emit answers 102 to 106 only: it looks at the oldest events, from each of which more than
     * half the capacity lies up to write_pos, so that 101 can't hold, and it doesn't look at sequences.
     */
    LAMIPEONGA_DAMAGED_LEFT = 101,        /* fewer than 32 bytes lie from its first one to write_pos */
    LAMIPEONGA_DAMAGED_HEADER_SIZE = 102, /* its header_size isn't 32 */
    LAMIPEONGA_DAMAGED_EVENT_SIZE = 103,  /* its event_size is under 32 */
    LAMIPEONGA_DAMAGED_WRITE_POS = 104,   /* it runs past write_pos */
    LAMIPEONGA_DAMAGED_CPU_ID = 105,      /* its cpu_id isn't the ring's */
    LAMIPEONGA_DAMAGED_SPARE = 106,       /* one of its three bytes that are to be zero isn't */
    LAMIPEONGA_DAMAGED_SEQUENCE = 107     /* it is well formed, but its sequence doesn't rise: it isn't above that of the event before, or above 0 */
};

#define LAMIPEONGA_LEAST_CAPACITY 256
#define LAMIPEONGA_LARGEST_CAPACITY 1048576
#define LAMIPEONGA_RING_BYTES(capacity) (8192 + (size_t)(capacity))

/* bytes that an event takes beside its payload */
#define LAMIPEONGA_HEADER_BYTES 32

/* the writer's record: last sequence given, events dropped, events overwritten, 8 bytes each; all zero with a fresh ring */
#define LAMIPEONGA_RECORD_BYTES 24

/* places in a ring: the counter that a wake moves (4 bytes), and the flag that a consumer sets before it waits (1 byte; whatever isn't 0 is set) */
#define LAMIPEONGA_FUTEX_COUNTER_AT 128
#define LAMIPEONGA_NEED_WAKE_AT 4096

/*
 * Makes the buffer an empty ring, whatever it held: every byte of it is written.
 *   ring, ring_bytes   the buffer, 8,192 + capacity bytes
 *   cpu_id             whose ring it is; every event in it bears this number
 * Answers DONE or SIZE. Start with a record of 24 zero bytes.
 */
uint32_t lamipeonga_create(uint8_t *ring, size_t ring_bytes, uint16_t cpu_id);

/*
 * Stores one event, over the oldest ones where it needs their room.
 *   ring, ring_bytes         the ring
 *   record, record_bytes     the writer's record, 24 bytes; read, and written anew unless the call is refused
 *   timestamp                in ns
 *   event_type, origin_class any numbers
 *   payload, payload_bytes   the event's content, of any length; none is a length of 0
 * Answers DONE; WAKE, which is done too; DROPPED if LAMIPEONGA_HEADER_BYTES + payload_bytes is above half the capacity; or one of SHORT to DISAGREE,
 * DAMAGED_HEADER_SIZE to DAMAGED_SPARE, and RECORD. DONE, WAKE and DROPPED use up one sequence number.
 * WAKE is answered if the byte at LAMIPEONGA_NEED_WAKE_AT isn't 0. The flag is the consumer's: no call writes it.
 */
uint32_t lamipeonga_emit(uint8_t *ring, size_t ring_bytes, uint8_t *record, size_t record_bytes, uint64_t timestamp, uint32_t event_type,
                         uint8_t origin_class, const uint8_t *payload, size_t payload_bytes);

/*
 * Looks at every event in the ring, from the oldest to the newest. Writes nothing.
 * Answers DONE if all are well formed and their sequences rise from above 0, else one of SHORT to POSITION, or of
 * DAMAGED_LEFT to DAMAGED_SEQUENCE.
 */
uint32_t lamipeonga_inspect(const uint8_t *ring, size_t ring_bytes);

#ifdef __cplusplus
}
#endif

#endif
