/* A caller in C: what goes in and comes back by value does so as the header says. */
#include "ramekinfold.h"

#include <stdio.h>
#include <string.h>

/* The digest of the empty message, as the Keccak team publishes it. */
static const uint8_t EMPTY[32] = {
    0xc5, 0xd2, 0x46, 0x01, 0x86, 0xf7, 0x23, 0x3c, 0x92, 0x7e, 0x7d, 0xb2, 0xdc, 0xc7, 0x03, 0xc0,
    0xe5, 0x00, 0xb6, 0x53, 0xca, 0x82, 0x27, 0x3b, 0x7b, 0xfa, 0xd8, 0x04, 0x5d, 0x85, 0xa4, 0x70,
};

static int failures = 0;

static void expect(const char *what, RkfDigested got, const uint8_t digest[32]) {
    if (got.answer != 0 || memcmp(got.digest, digest, 32) != 0) {
        printf("tests/header.c: %s: another digest\n", what);
        failures += 1;
    }
}

static void say(const char *what, int holds) {
    if (!holds) {
        printf("tests/header.c: %s: another answer\n", what);
        failures += 1;
    }
}

enum { CAPACITY = 16, BOOK = 48 + 145 * CAPACITY, CELL = 11, SHELF = CELL * CAPACITY, SAMPLE = 1024 };

/* A batch of depth 17, of the account of twenty 0x22. */
static uint8_t batch[53], owner[20];

static uint8_t book[BOOK];

static void stamp_of(uint8_t stamp[113], const uint8_t address[32], uint8_t time) {
    memset(stamp, 0, 113);
    memcpy(stamp, batch, 32);
    memcpy(stamp + 34, address, 2);
    stamp[47] = time;
}

static uint32_t offered(const uint8_t address[32], uint8_t time, size_t account_length) {
    uint8_t stamp[113];
    stamp_of(stamp, address, time);
    return rkf_offer(book, BOOK, batch, 53, address, 32, stamp, 113, owner, account_length);
}

/* An overlay and an address of zeros: every address is inside depth 0. */
static void books(void) {
    uint8_t zeros[32], before[BOOK];
    uint8_t first[145], second[145];
    RkfPart higher;

    memset(zeros, 0, sizeof zeros);
    memset(batch, 0x11, 32);
    memset(batch + 32, 0x22, 20);
    batch[52] = 17;
    memset(owner, 0x22, sizeof owner);
    memset(book, 0xee, BOOK);
    memcpy(before, book, BOOK);
    say("a capacity of 15", rkf_open(book, BOOK, zeros, 32, 15, 0) == 27 && memcmp(book, before, BOOK) == 0);
    say("a book opened", rkf_open(book, BOOK, zeros, 32, CAPACITY, 0) == 0);
    say("it is well formed", rkf_check_book(book, BOOK) == 0);
    say("a byte short it is not", rkf_check_book(book, BOOK - 1) == 13);

    say("an offer kept", offered(zeros, 5, 20) == 0 && book[47] == 1 && rkf_check_book(book, BOOK) == 0);
    memcpy(before, book, BOOK);
    say("that very record", offered(zeros, 5, 20) == 21 && memcmp(book, before, BOOK) == 0);
    say("an account of 19 bytes", offered(zeros, 6, 19) == 10 && memcmp(book, before, BOOK) == 0);
    memcpy(first, book + 48, 145);
    say("a later time", offered(zeros, 6, 20) == 0 && memcmp(book, before, 48) == 0 && memcmp(book, before, BOOK) != 0);
    memcpy(second, book + 48, 145);

    higher = rkf_higher(first, 145, second, 145);
    say("the second record ranks higher", higher.start == 1 && higher.length == 145);
    higher = rkf_higher(second, 145, first, 145);
    say("the first record ranks higher", higher.start == 0 && higher.length == 145);
    higher = rkf_higher(first, 145, second, 144);
    say("a record of 144 bytes", higher.start == 0 && higher.length == 0);
}

/* Sixteen chunks of one byte, filed, and laid out in the order of their records. */
static void stock(uint8_t shelf[SHELF]) {
    static const uint8_t span[8] = {1, 0, 0, 0, 0, 0, 0, 0};
    RkfDigested address[CAPACITY];
    uint8_t zeros[32], data, chunk, place;

    memset(zeros, 0, sizeof zeros);
    rkf_open(book, BOOK, zeros, 32, CAPACITY, 0);
    for (data = 0; data < CAPACITY; data++) {
        address[data] = rkf_address(span, 8, &data, 1);
        say("a chunk filed", offered(address[data].digest, 1, 20) == 0);
    }
    memset(shelf, 0, SHELF);
    for (place = 0; place < CAPACITY; place++) {
        for (chunk = 0; chunk < CAPACITY; chunk++) {
            if (memcmp(address[chunk].digest, book + 48 + 145 * place + 48, 32) != 0) continue;
            memcpy(shelf + CELL * place, span, 8);
            shelf[CELL * place + 9] = 1;
            shelf[CELL * place + 10] = chunk;
        }
    }
}

static void draws(void) {
    static const uint8_t span[8] = {0, 4, 0, 0, 0, 0, 0, 0};
    uint8_t anchor[32], shelf[SHELF], sample[SAMPLE], before[SAMPLE], zeros[32];
    RkfDrawn drawn, refused;

    memset(anchor, 3, sizeof anchor);
    memset(zeros, 0, sizeof zeros);
    memset(sample, 0xee, SAMPLE);
    memcpy(before, sample, SAMPLE);
    stock(shelf);

    shelf[SHELF - 1] ^= 0x80;
    refused = rkf_draw(book, BOOK, shelf, SHELF, anchor, 32, sample, SAMPLE);
    say("a chunk that is not its record's", refused.answer == 24 && refused.place == 15);
    say("that draw hands back zeros and writes nothing",
        memcmp(refused.commitment, zeros, 32) == 0 && memcmp(sample, before, SAMPLE) == 0);
    shelf[SHELF - 1] ^= 0x80;
    drawn = rkf_draw(book, BOOK, shelf, SHELF, anchor, 32, sample, SAMPLE);
    say("a draw", drawn.answer == 0 && drawn.place == 0);
    expect("the commitment is the sample's address", rkf_address(span, 8, sample, SAMPLE), drawn.commitment);
}

int main(void) {
    uint8_t message[300];
    RkfDigested whole, start;
    RkfSponge begun, stale;
    RkfDigested address;
    RkfNumbered near;
    RkfPart part;
    uint8_t proof[264];
    uint32_t made;
    size_t i;

    for (i = 0; i < sizeof message; i++) message[i] = (uint8_t)(i * 7);
    whole = rkf_keccak256(message, sizeof message);
    start = rkf_keccak256(message, 137);

    expect("the empty message", rkf_keccak256(message, 0), EMPTY);
    expect("the empty message, at no address", rkf_keccak256(NULL, 0), EMPTY);
    expect("a fresh sponge", rkf_finish(rkf_sponge()), EMPTY);

    begun = rkf_absorb(rkf_sponge(), message, 137);
    expect("two parts", rkf_finish(rkf_absorb(begun, message + 137, sizeof message - 137)), whole.digest);
    expect("a sponge that went on elsewhere", rkf_finish(begun), start.digest);

    stale = begun;
    stale.place = 136;
    expect("a stale sponge", rkf_finish(stale), EMPTY);

    /* A proof made is a proof that passes, at its own index and no other. */
    made = rkf_make_proof(message, 8, message, sizeof message, 5, proof, sizeof proof);
    address = rkf_address(message, 8, message, sizeof message);
    say("a proof made", made == 0 && address.answer == 0);
    say("that proof passes", rkf_check_proof(address.digest, 32, 5, proof, sizeof proof) == 0);
    say("elsewhere it does not", rkf_check_proof(address.digest, 32, 4, proof, sizeof proof) == 1);
    say("past the last segment", rkf_check_proof(address.digest, 32, 128, proof, sizeof proof) == 11);
    say("an anchor of 31 bytes", rkf_anchored_address(message, 31, message, 8, message, 4).answer == 10);
    part = rkf_segment(message, sizeof message, 9);
    say("the last segment", rkf_segment_count(message, sizeof message) == 10 && part.start == 288 && part.length == 12);
    near = rkf_nearness(message, 32, message, 32);
    say("nearness to oneself", near.answer == 0 && near.number == 256);
    books();
    draws();
    return failures;
}
