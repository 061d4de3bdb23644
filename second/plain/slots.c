/*
 * The plain listing of PCI slots.  Each bus has a set of the slots that interrupts
 * name on it: one pass over the buses empties the sets, one over the I/O interrupts
 * fills them, and one over the sets writes, so that all is in order.
 */
#include "plain.h"
#include "set.h"

/*
 * A slot is what bits 0 to 6 of a source IRQ say (MPS D.3): the pin in bits 0 and 1
 * and the device above.  Interrupts go to one of two sets in turn, since to mark
 * one waits for the one before that went to the same word.
 */
struct slots {
    uint64_t word[2][2];      /* of the first set and of the second, 64 slots each */
};

struct named {
    struct set pci;           /* the buses that are PCI */
    struct slots on[256];     /* of the buses that are listed */
};

static void gather_buses(const struct table *t, struct named *s)
{
    s->pci = (struct set){ { 0 } };
    for (size_t at = t->base[BUS]; at < t->base[BUS + 1]; at += 8) {
        const uint8_t *e = t->bytes + at;

        s->pci.word[e[1] >> 6] |= (uint64_t)is_pci(e) << (e[1] & 63);
        s->on[e[1]] = (struct slots){ { { 0 } } };
    }
}

/* "Whatever its interrupt type"; its bus is listed, by rule 17. */
static inline void mark(struct named *s, const uint8_t *e, int turn)
{
    s->on[e[4]].word[turn][e[5] >> 6 & 1] |= (uint64_t)1 << (e[5] & 63);
}

static void gather_slots(const struct table *t, struct named *s)
{
    const uint8_t *e = t->bytes + t->base[IO_INT];
    const uint8_t *end = t->bytes + t->base[IO_INT + 1];

    for (; end - e >= 16; e += 16) {
        mark(s, e, 0);
        mark(s, e + 8, 1);
    }
    if (e < end)
        mark(s, e, 0);
}

/* The named ones among the first 64 slots of a bus, or among the others. */
static inline uint64_t half(const struct named *s, unsigned bus, int upper)
{
    return s->on[bus].word[0][upper] | s->on[bus].word[1][upper];
}

/* The place of the lowest bit of a word that is not 0. */
static inline unsigned lowest(uint64_t word)
{
    return (unsigned)__builtin_ctzll(word);
}

/*
 * How many bits are set.  Not the compiler's builtin: without the machine's own
 * instruction, which not every x86-64 has, that is a call with gcc.
 */
static unsigned bits_in(uint64_t word)
{
    word -= word >> 1 & UINT64_C(0x5555555555555555);
    word = (word & UINT64_C(0x3333333333333333))
         + (word >> 2 & UINT64_C(0x3333333333333333));
    word = (word + (word >> 4)) & UINT64_C(0x0F0F0F0F0F0F0F0F);
    return (unsigned)(word * UINT64_C(0x0101010101010101) >> 56);
}

static inline unsigned slots_on(const struct named *s, unsigned bus)
{
    return bits_in(half(s, bus, 0)) + bits_in(half(s, bus, 1));
}

static size_t count_slots(const struct named *s)
{
    size_t count = 0;

    for (unsigned i = 0; i < 4; i++)
        for (uint64_t left = s->pci.word[i]; left != 0; left &= left - 1)
            count += slots_on(s, 64 * i + lowest(left));
    return count;
}

static inline uint8_t *put_half(uint8_t *p, const struct named *s, unsigned bus,
                                int upper)
{
    for (uint64_t left = half(s, bus, upper); left != 0; left &= left - 1) {
        unsigned slot = lowest(left) + 64 * (unsigned)upper;

        p[0] = (uint8_t)bus;
        p[1] = (uint8_t)(slot >> 2);
        p[2] = slot & 3;
        p += 3;
    }
    return p;
}

static inline uint8_t *put_bus(uint8_t *p, const struct named *s, unsigned bus)
{
    p = put_half(p, s, bus, 0);
    return put_half(p, s, bus, 1);
}

/* Answers how many it put. */
static size_t put_slots(const struct named *s, uint8_t *room)
{
    uint8_t *p = room;

    for (unsigned i = 0; i < 4; i++)
        for (uint64_t left = s->pci.word[i]; left != 0; left &= left - 1)
            p = put_bus(p, s, 64 * i + lowest(left));
    return (size_t)(p - room) / 3;
}

uint64_t plain_slots(const uint8_t *bytes, size_t n, uint8_t *room, size_t size)
{
    struct table t;
    struct named s;
    uint8_t refusal;

    if ((refusal = plain_judge_walk(bytes, n, &t)) != 0)
        return refused(refusal);

    gather_buses(&t, &s);
    gather_slots(&t, &s);

    /* 19: no more slots than interrupts, so a room for as many needs no count */
    size_t most = (t.base[IO_INT + 1] - t.base[IO_INT]) / 8;
    if (most > size / 3)
        most = count_slots(&s);
    if (most > size / 3)
        return refused(19);

    return counted(most == 0 ? 0 : put_slots(&s, room));
}
