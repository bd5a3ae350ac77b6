/* Counts hashes: over every length of data an address takes no more of them than the recursion of the definition would.
 * tests/hashes links this with an archive whose permutation adds one to the number at COUNTED: one a block, and each message that an
 * address hashes is one block. */
#include "ramekinfold.h"

#include <stdio.h>
#include <string.h>
#include <sys/mman.h>

#define COUNTED ((uint64_t *)0x10000000)

enum { LEVEL = 7, MOST = 4096, SHOWN = 4 };

static const uint8_t span[8], anchor[32];
static uint8_t bytes[MOST];
static int failures = 0;

/* What was counted since it was last asked. */
static unsigned counted(void) {
    unsigned count = (unsigned)*COUNTED;
    *COUNTED = 0;
    return count;
}

static void say(const char *what, int holds) {
    if (holds) return;
    printf("tests/hashes.c: not so: %s\n", what);
    failures += 1;
}

static size_t width(unsigned level) { return (size_t)32 << level; }

/* The root of a part of a level: where the part is empty, a hash a level for zeros; for a segment none; else both halves, and one. */
static unsigned by_recursion(size_t length, unsigned level) {
    size_t left;
    if (length == 0) return level;
    if (level == 0) return 0;
    left = length < width(level - 1) ? length : width(level - 1);
    return by_recursion(left, level - 1) + by_recursion(length - left, level - 1) + 1;
}

/* The nodes that stand over data. No way to the root does without their hashes: where fewer are counted, not all are. */
static unsigned over_data(size_t length) {
    unsigned level, nodes = 0;
    for (level = 1; level <= LEVEL; level++) nodes += (unsigned)((length + width(level) - 1) / width(level));
    return nodes;
}

/* Every length of data: the hashes of its root, and one of span and root. */
static void expect_addresses(const char *what, uint32_t (*address)(size_t length)) {
    unsigned wrong = 0;
    size_t length;

    for (length = 0; length <= MOST; length++) {
        uint32_t answer = address(length);
        unsigned count = counted(), least = over_data(length) + 1, most = by_recursion(length, LEVEL) + 1;
        if (answer == 0 && least <= count && count <= most) continue;
        if (++wrong > SHOWN) continue;
        printf("tests/hashes.c: %s of %zu bytes: answer %u, %u hashes, ", what, length, answer, count);
        printf("where the recursion takes %u and no way fewer than %u\n", most, least);
    }
    printf("tests/hashes.c: %s: %u of %d lengths are wrong\n", what, wrong, MOST + 1);
    failures += wrong > 0;
}

static uint32_t plain(size_t length) { return rkf_address(span, 8, bytes, length).answer; }
static uint32_t anchored(size_t length) { return rkf_anchored_address(anchor, 32, span, 8, bytes, length).answer; }

int main(void) {
    if (mmap(COUNTED, sizeof *COUNTED, PROT_READ | PROT_WRITE, MAP_PRIVATE | MAP_ANONYMOUS, -1, 0) != COUNTED) {
        printf("tests/hashes.c: there is no room at %p, where the permutation counts\n", (void *)COUNTED);
        return 1;
    }
    memset(bytes, 1, sizeof bytes);
    say("the permutation that counts is still the permutation", rkf_keccak256(bytes, 0).digest[0] == 0xc5);
    say("nothing is one block", counted() == 1);
    rkf_keccak256(bytes, 135);
    say("135 bytes are one block", counted() == 1);
    rkf_keccak256(bytes, 136);
    say("136 bytes are two blocks", counted() == 2);
    expect_addresses("an address", plain);
    expect_addresses("an anchored address", anchored);
    return failures != 0;
}
