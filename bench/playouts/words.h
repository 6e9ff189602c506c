/* The generator of playouts, by hand in C: PCG XSL RR 128/64, seeded as `seed_from_u64` of the crates rand_pcg and rand_core does it. */
#include <stdint.h>

__extension__ typedef unsigned __int128 wide;
typedef struct {
    wide state, increment;
} generator;

static const wide multiplier = (wide)0x2360ed051fc65da4 << 64 | 0x4385df649fccf645;

/* The next 32 bits of PCG XSH RR 64/32, which makes a seed of a number. */
static uint32_t seed_word(uint64_t *state) {
    *state = *state * 0x5851f42d4c957f2d + 0xa17654e46fbe17f3;
    uint32_t word = (uint32_t)((*state >> 18 ^ *state) >> 27), turn = (uint32_t)(*state >> 59);
    return word >> turn | word << (-turn & 31);
}

/* 128 bits of the seed, the low ones first. */
static wide seed_part(uint64_t *state) {
    wide part = 0;
    for (int at = 0; at < 128; at += 32) part |= (wide)seed_word(state) << at;
    return part;
}

static generator generator_of(uint64_t seed) {
    generator made;
    wide start = seed_part(&seed);
    made.increment = seed_part(&seed) | 1;
    made.state = (start + made.increment) * multiplier + made.increment;
    return made;
}

static inline uint64_t next_word(generator *words) {
    words->state = words->state * multiplier + words->increment;
    uint64_t word = (uint64_t)(words->state >> 64) ^ (uint64_t)words->state;
    unsigned turn = (unsigned)(words->state >> 122);
    return word >> turn | word << (-turn & 63);
}

/* A number below a count, by the high half of the next word. */
static inline uint32_t draw(generator *words, uint32_t count) {
    return (uint32_t)((next_word(words) >> 32) * count >> 32);
}
