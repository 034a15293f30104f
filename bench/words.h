/* Numbers in bytes, loaded and stored whole. Little-endian processors only. */
#ifndef WORDS_H
#define WORDS_H

#include <stdint.h>
#include <string.h>

/* on the way of every call; and off it */
#define INLINE static inline __attribute__((always_inline, unused))
#define COLD static __attribute__((noinline, cold))
#define LIKELY(test) __builtin_expect((test) != 0, 1)

INLINE uint64_t get64(const uint8_t *at)
{
    uint64_t value;

    memcpy(&value, at, sizeof value);
    return value;
}

INLINE uint32_t get32(const uint8_t *at)
{
    uint32_t value;

    memcpy(&value, at, sizeof value);
    return value;
}

INLINE uint16_t get16(const uint8_t *at)
{
    uint16_t value;

    memcpy(&value, at, sizeof value);
    return value;
}

INLINE void put64(uint8_t *at, uint64_t value)
{
    memcpy(at, &value, sizeof value);
}

INLINE void put32(uint8_t *at, uint32_t value)
{
    memcpy(at, &value, sizeof value);
}

#endif
