/* A builder of bare MP tables, and the numbers and sums in them. */
#ifndef SECOND_BUILDER_H
#define SECOND_BUILDER_H

#include <stddef.h>
#include <stdint.h>

enum {
    HEADER = 44,
    PART_LIMIT = 4096,
    PART_ROOM = 12288        /* the builder itself can pass the limit */
};

struct builder {
    uint8_t header[HEADER];  /* what seal() does not work out */
    uint8_t base[PART_ROOM];
    size_t base_len;         /* without the header */
    uint32_t count;
    uint8_t ext[PART_ROOM];
    size_t ext_len;
};

/* Listed apart from the judge's own, so that a slip in either is found. */
extern const char bus_names[18][7];

void builder_start(struct builder *b, uint32_t local_apic);
void add_processor(struct builder *b, uint8_t id, uint8_t flags);
void add_bus(struct builder *b, uint8_t id, const char *name);
void add_io_apic(struct builder *b, uint8_t id, uint8_t flags, uint32_t address);
void add_interrupt(struct builder *b, uint8_t entry, uint8_t type, uint8_t flags,
                   uint8_t bus, uint8_t irq, uint8_t destination, uint8_t input);
void add_mapping(struct builder *b, uint8_t bus, uint8_t kind, uint64_t base,
                 uint64_t length);
void add_link(struct builder *b, uint8_t bus, uint8_t bits, uint8_t parent);
void add_modifier(struct builder *b, uint8_t bus, uint8_t bits, uint32_t list);
void add_unknown(struct builder *b, uint8_t type, uint8_t length, uint8_t fill);

/* How far a part is from a length; the header belongs to the base part. */
size_t base_left(const struct builder *b, size_t goal);
size_t ext_left(const struct builder *b, size_t goal);

/* Works out lengths, count and checksums; answers the image's length. */
size_t seal(const struct builder *b, uint8_t *out);

/* Sets byte 42 and then byte 7 right for the lengths the image states. */
void mend(uint8_t *image, size_t n);

/* The lengths an image states. */
size_t base_of(const uint8_t *image);
size_t ext_of(const uint8_t *image);

/* Little-endian numbers of n bytes. */
void put_le(uint8_t *p, uint64_t v, size_t n);
uint32_t get_le(const uint8_t *p, size_t n);   /* up to 4 */
uint64_t get_long(const uint8_t *p);           /* 8 */

uint8_t byte_sum(const uint8_t *p, size_t n);

/*
 * The fields of a header that a writer takes, each as one number: the OEM ID, the
 * first eight bytes of the product, its last four, OEM pointer, OEM size, local
 * APIC address, byte 43.
 */
enum { FIELDS = 7 };
void put_fields(const uint8_t *header, uint64_t field[FIELDS]);

/* A processor and bus 0. */
void small_board(struct builder *b);

/* The bench board of the paper; answers its length, 96. */
size_t bench_board(uint8_t *out);

/* A table taken apart again, as its header states its lengths and count. */
void unseal(struct builder *b, const uint8_t *image);

#endif
