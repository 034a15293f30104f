/*
 * A recording that arrives in pieces, from the papers, written to be fast: what RULES 11.1 to 11.11 say, but that any state is taken for a possible one.
 * It goes as the listener does: one report to a step; and where nothing is kept, events that lie whole in the piece are gone over in a loop of their own,
 * with the few numbers that they change at hand. Every report goes into one sum, so that none can be left out.
 */
#include "plain.h"
#include "words.h"

#include <string.h>

enum { AT_OPENING, AMONG_EVENTS, BEHIND_CLOSING, STOPPED };

enum { MARK = 1, VERSION = 2, SPARE = 3, BAD_HEADER = 4, SEQUENCE = 5, COUNTS = 6, BEHIND = 7, EARLY = 8 };

#define OPENING 8
#define HEADER 32
#define CLOSING 24
#define HIGHEST ((uint64_t)1 << 62)

struct course {
    uint64_t place;
    uint64_t events;
    uint64_t last;
    uint64_t left;
    uint32_t stage;
    uint16_t cpu_id;
};

struct listener {
    struct course course;
    size_t held;
    uint8_t kept[HEADER];
};

/* header size and cpu_id stand side by side, and are compared as one word */
INLINE uint32_t marked(uint16_t cpu_id)
{
    return HEADER | (uint32_t)cpu_id << 16;
}

INLINE int well_formed(const uint8_t *header, uint32_t mark)
{
    return get32(header) >= HEADER && get32(header + 4) == mark && get32(header + 28) < 256;
}

COLD uint64_t faulted(struct course *course, size_t bytes, uint64_t fault)
{
    uint64_t place = course->place;

    course->place += bytes;
    course->stage = STOPPED;
    return fault + place;
}

INLINE uint64_t judge_opening(struct course *course, const uint8_t *opening)
{
    if ((get32(opening) & 0xFFFFFF) != 0x4C5053)
        return faulted(course, OPENING, MARK);
    if (get16(opening + 3) != 1)
        return faulted(course, OPENING, VERSION);
    if (opening[7] != 0)
        return faulted(course, OPENING, SPARE);
    course->cpu_id = get16(opening + 5);
    course->place += OPENING;
    course->stage = AMONG_EVENTS;
    course->events = course->last = course->left = 0;
    return 0;
}

INLINE uint64_t judge_closing(struct course *course, const uint8_t *closing)
{
    uint64_t handed = get64(closing + 8);
    uint64_t missed = get64(closing + 16);

    if (get64(closing) != 0)
        return faulted(course, CLOSING, SPARE);
    if (handed != course->events || missed != course->last - course->events)
        return faulted(course, CLOSING, COUNTS);
    course->place += CLOSING;
    course->stage = BEHIND_CLOSING;
    return handed + missed;
}

INLINE uint64_t judge_header(struct course *course, const uint8_t *header)
{
    uint64_t sequence = get64(header + 8);

    if (!well_formed(header, marked(course->cpu_id)))
        return faulted(course, HEADER, BAD_HEADER);
    if (sequence <= course->last)
        return faulted(course, HEADER, SEQUENCE);
    course->place += HEADER;
    course->events++;
    course->last = sequence;
    course->left = get32(header) - HEADER;
    return sequence;
}

/* how many bytes tell what comes, of which `have` are there */
INLINE size_t awaited(const struct listener *listener, size_t have)
{
    if (listener->course.stage == AT_OPENING)
        return OPENING;
    if (have < 4)
        return 4;
    return get32(listener->kept) == 0 ? CLOSING : HEADER;
}

/* an opening, a header or a closing, of which some bytes are kept or not all are here */
INLINE size_t gather(struct listener *listener, const uint8_t *piece, size_t bytes, uint64_t *sum)
{
    size_t held = listener->held;
    size_t room = HEADER - held;
    size_t have = held + bytes;
    size_t wanted;

    memcpy(listener->kept + held, piece, bytes < room ? bytes : room);
    wanted = awaited(listener, have);
    if (have < wanted) {
        listener->held = have;
        return bytes;
    }
    listener->held = 0;
    if (wanted == OPENING)
        *sum += judge_opening(&listener->course, listener->kept);
    else if (wanted == CLOSING)
        *sum += judge_closing(&listener->course, listener->kept);
    else
        *sum += judge_header(&listener->course, listener->kept);
    return wanted - held;
}

INLINE size_t step(struct listener *listener, const uint8_t *piece, size_t bytes, uint64_t *sum)
{
    struct course *course = &listener->course;
    size_t here;

    if (course->stage > AMONG_EVENTS) {
        if (course->stage == BEHIND_CLOSING)
            *sum += faulted(course, bytes, BEHIND);
        else
            course->place += bytes;
        return bytes;
    }
    if (course->stage == AT_OPENING || course->left == 0)
        return gather(listener, piece, bytes, sum);
    here = course->left < bytes ? (size_t)course->left : bytes;
    *sum += course->place + here;
    course->place += here;
    course->left -= here;
    return here;
}

/* while nothing is kept: payloads, and headers that lie whole in the piece and are in order */
INLINE size_t run(struct course *course, const uint8_t *piece, size_t bytes, size_t at, uint64_t *sum)
{
    uint64_t place = course->place, events = course->events, last = course->last, left = course->left, total = *sum;
    uint32_t mark = marked(course->cpu_id);

    while (at < bytes) {
        if (left != 0) {
            size_t here = left < bytes - at ? (size_t)left : bytes - at;

            total += place + here;
            place += here;
            left -= here;
            at += here;
        } else {
            const uint8_t *header = piece + at;

            if (bytes - at < HEADER || !well_formed(header, mark) || get64(header + 8) <= last)
                break;
            last = get64(header + 8);
            left = get32(header) - HEADER;
            total += last;
            events++;
            place += HEADER;
            at += HEADER;
        }
    }
    course->place = place;
    course->events = events;
    course->last = last;
    course->left = left;
    *sum = total;
    return at;
}

/* 0 if the file would pass 2^62 bytes */
INLINE int hear(struct listener *listener, const uint8_t *piece, size_t bytes, uint64_t *sum)
{
    size_t at = 0;

    if (bytes > HIGHEST - (listener->course.place + listener->held))
        return 0;
    while (at < bytes) {
        if (listener->held == 0 && listener->course.stage == AMONG_EVENTS) {
            at = run(&listener->course, piece, bytes, at, sum);
            if (at == bytes)
                break;
        }
        at += step(listener, piece + at, bytes - at, sum);
    }
    return 1;
}

uint64_t plain_listen(const uint8_t *file, size_t file_bytes, uint64_t size)
{
    struct listener listener;
    uint64_t sum = 0;

    memset(&listener, 0, sizeof listener);
    for (size_t at = 0; at < file_bytes;) {
        size_t bytes = size != 0 && size < file_bytes - at ? (size_t)size : file_bytes - at;

        if (!hear(&listener, file + at, bytes, &sum))
            break;
        at += bytes;
    }
    if (listener.course.stage <= AMONG_EVENTS)
        sum += EARLY + listener.course.place + listener.held;
    return sum;
}
