/*
 * image_reach.h: the part of a 6502 image that calls can reach.
 *
 * Link with libimage_reach.a, which `tools/staticlib` writes to target/staticlib (x86-64 Linux):
 *
 *     cc -Ibindings/c program.c target/staticlib/libimage_reach.a
 *
 * An image is `length` bytes that stand in memory from the address `load` on. Entries are the addresses at which it is called.
 * A list is a pointer and a number of elements; the pointer of an empty list is not used and may be NULL. Every other pointer
 * points to room for what its type says. What a call writes must overlap neither what it reads nor what else it writes.
 *
 * The functions are proved: for every image, load address and entry list they return, read and write nothing beyond the lists
 * and results named here, and give the one answer that the definitions in crates/image_reach/specs/Face.antt fix. They keep
 * nothing between calls, so several threads may call them at once. They allocate nothing; each takes up to 40 KB of the
 * caller's stack for its local arrays.
 */
#ifndef IMAGE_REACH_H
#define IMAGE_REACH_H

#include <stddef.h>
#include <stdint.h>

#ifdef __cplusplus
extern "C" {
#endif

/* What a call returns. On any number but 0 all its results are 0, but for the number of records that 6 needs. */
enum image_reach_number {
    IMAGE_REACH_ANSWERED = 0,    /* the results are written */
    IMAGE_REACH_IMAGE_EMPTY = 1, /* the image has no byte */
    IMAGE_REACH_NO_ENTRIES = 2,  /* there is no entry */
    IMAGE_REACH_PAST_TOP = 3,    /* the image ends past 0xFFFF */
    IMAGE_REACH_REFUSED = 4,     /* an entry is outside, a refused instruction is reachable, or more than 4,096 instructions are */
    IMAGE_REACH_UNBOUNDED = 5,   /* a reachable store has no bounded span */
    IMAGE_REACH_SHORT = 6,       /* the lent list is too short; *records is the number of slots it needs */
    IMAGE_REACH_FULL = 7         /* more than 4,096 addresses are pending; proved never to happen */
};

/*
 * The plain span: the least and the greatest address that reachable instructions take or name, and how many instructions are
 * reachable. Returns 0, 1, 2, 3, 4 or 7.
 */
uint32_t image_reach_span(const uint8_t *image, size_t length, uint16_t load,
                          const uint16_t *entries, size_t entry_count,
                          uint16_t *low, uint16_t *high, uint32_t *count);

/*
 * The guarded span: the same, counting also the part inside the image of an indexed table whose base lies outside it. Give
 * variables only what is outside this one. Returns 0, 1, 2, 3, 4 or 7.
 */
uint32_t image_reach_guarded_span(const uint8_t *image, size_t length, uint16_t load,
                                  const uint16_t *entries, size_t entry_count,
                                  uint16_t *low, uint16_t *high, uint32_t *count);

/* The plain span's greatest address alone. Returns 0, 1, 2, 3, 4 or 7. */
uint32_t image_reach_end(const uint8_t *image, size_t length, uint16_t load,
                         const uint16_t *entries, size_t entry_count,
                         uint16_t *high);

/*
 * The diagnosis: every reason to refuse a span, in place of the first one. It writes a record for each to slots[0] to
 * slots[*records - 1], by ascending address and then cause, and leaves the other slots as they were. *low and *high are the
 * range of what was read, *count is the number of addresses met. Returns 0, 1, 2, 3, 6 or 7; on any number but 0 every slot is
 * left as it was. A first call with no slots tells the number of slots needed.
 */
uint32_t image_reach_diagnose(const uint8_t *image, size_t length, uint16_t load,
                              const uint16_t *entries, size_t entry_count,
                              uint64_t *slots, size_t slot_count,
                              uint16_t *low, uint16_t *high, uint32_t *count, size_t *records);

/*
 * The store spans: what the reachable stores can write to, outside zero page and the stack. It writes a record for each store to
 * slots[0] to slots[*records - 1], by ascending instruction, and leaves the other slots as they were. 4,096 slots are always
 * enough. Returns 0 to 7; on any number but 0 every slot is left as it was.
 */
uint32_t image_reach_write_extent(const uint8_t *image, size_t length, uint16_t load,
                                  const uint16_t *entries, size_t entry_count,
                                  uint32_t *slots, size_t slot_count,
                                  size_t *records);

/*
 * The tracker: what a scan of the code, byte after byte, knows of registers and zero page from immediate loads and stores of
 * them. registers[0], [1], [2] are A, X, Y, and known[] is 1 for each that is known; zp[z] is the zero-page byte z, and marks[z]
 * is 1 where it is known. What is not known is 0. It always answers.
 */
void image_reach_track_immediates(const uint8_t *code, size_t length,
                                  uint8_t registers[3], uint8_t known[3],
                                  uint8_t zp[256], uint8_t marks[256]);

/* ── a record of the diagnosis ── */

/* The cause of a refusal, and its slug (image_reach_slug). */
enum image_reach_cause {
    IMAGE_REACH_ILLEGAL_OPCODE = 0,  /* illegal-opcode: no instruction of the chip */
    IMAGE_REACH_BRK = 1,             /* brk */
    IMAGE_REACH_JMP_INDIRECT = 2,    /* jmp-indirect */
    IMAGE_REACH_INDIRECT_Y = 3,      /* indirect-y: ($nn),Y */
    IMAGE_REACH_INDIRECT_X = 4,      /* indirect-x: ($nn,X) */
    IMAGE_REACH_OPERAND_OFF_END = 5, /* operand-off-end: the operand's bytes are past the end */
    IMAGE_REACH_RAN_OFF_END = 6,     /* ran-off-end: control runs past the end */
    IMAGE_REACH_BUDGET = 7,          /* budget: the 4,097th instruction */
    IMAGE_REACH_ENTRY_OUTSIDE = 8    /* entry-outside: an entry that is not inside the image */
};

/* The address of the instruction, or of an entry that is outside. */
static inline uint16_t image_reach_record_address(uint64_t record) { return (uint16_t)(record >> 48); }

/* The cause, an enum image_reach_cause. */
static inline unsigned image_reach_record_cause(uint64_t record) { return (unsigned)(record >> 40 & 0xFF); }

/* The instruction's first byte; 0 for an entry that is outside. */
static inline uint8_t image_reach_record_opcode(uint64_t record) { return (uint8_t)(record >> 32); }

/* 1 where the record has a zero-page pointer: indirect-y and indirect-x. */
static inline int image_reach_record_has_pointer(uint64_t record) { return (int)(record >> 18 & 1); }

/* The zero-page pointer; 0 where there is none. */
static inline uint8_t image_reach_record_pointer(uint64_t record) { return (uint8_t)(record >> 24); }

/* indirect-y only: 1 where the tracker, over all bytes up to the site, knows both bytes of the pointer. */
static inline int image_reach_record_linear(uint64_t record) { return (int)(record >> 17 & 1); }

/* indirect-y only: 1 where the instructions met store one known value in each byte of the pointer. */
static inline int image_reach_record_walk(uint64_t record) { return (int)(record >> 16 & 1); }

/* How many entries come to the address, at most 65,535. */
static inline uint16_t image_reach_record_weight(uint64_t record) { return (uint16_t)record; }

/* A cause's slug, or "" for a number that is no cause. */
static inline const char *image_reach_slug(unsigned cause)
{
    static const char *const slugs[] = {
        "illegal-opcode", "brk", "jmp-indirect", "indirect-y", "indirect-x",
        "operand-off-end", "ran-off-end", "budget", "entry-outside",
    };
    return cause < sizeof slugs / sizeof slugs[0] ? slugs[cause] : "";
}

/* ── a record of the store spans ── */

/* The least address that the store can write. */
static inline uint16_t image_reach_store_low(uint32_t record) { return (uint16_t)(record >> 16); }

/* The greatest. */
static inline uint16_t image_reach_store_high(uint32_t record) { return (uint16_t)record; }

#ifdef __cplusplus
}
#endif

#endif
