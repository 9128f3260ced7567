/*
 * Forged buffers for every call of zubhanit.h, or, where FUZZ_CODECS is defined, for the ciphers and codecs alone: with
 * clang's libFuzzer, or with the driver below where FUZZ_DRIVER is defined. Each buffer ends at a page that can't be
 * touched, so that a read or write past it ends the program; what stands before it is looked at after each call. What is
 * read and can be written is written and read again.
 */
#define _DEFAULT_SOURCE
#include "zubhanit.h"

#include <stdio.h>
#include <stdlib.h>
#include <string.h>
#include <sys/mman.h>

enum { PAGE = 4096, ROOM = 64 * PAGE, MARK = 16, MOST = 4000, THINGS = 2048 };

#define CHECK(fact) \
    do { \
        if (!(fact)) { \
            fprintf(stderr, "fuzz: line %d: %s\n", __LINE__, #fact); \
            abort(); \
        } \
    } while (0)

/* Memory that ends at a page that can't be touched. */
typedef struct arena {
    uint8_t *end;
    size_t length;
} arena;

static void open_arena(arena *a) {
    if (a->end != NULL) return;
    uint8_t *pages = mmap(NULL, ROOM + PAGE, PROT_READ | PROT_WRITE, MAP_PRIVATE | MAP_ANONYMOUS, -1, 0);
    CHECK(pages != MAP_FAILED && mprotect(pages + ROOM, PAGE, PROT_NONE) == 0);
    a->end = pages + ROOM;
}

static uint8_t *take(arena *a, size_t length) {
    open_arena(a);
    a->length = length;
    memset(a->end - length - MARK, 0xa5, MARK);
    return a->end - length;
}

static uint8_t *copy(arena *a, const uint8_t *from, size_t length) {
    uint8_t *to = take(a, length);
    if (length != 0) memcpy(to, from, length);
    return to;
}

static void look(const arena *a) {
    for (size_t i = 1; i <= MARK; i++) CHECK(a->end[-(ptrdiff_t)(a->length + i)] == 0xa5);
}

static arena from, into, things, others;

/* Whether octets lie in the buffer that was read. */
static int lies(const uint8_t *octets, size_t length) {
    return length == 0 || (octets >= from.end - from.length && octets + length <= from.end);
}

static void fuzz_ciphers(const uint8_t *data, size_t size) {
    uint8_t key[16] = {0}, tag[4];
    size_t n = size > 24 ? size - 24 : 0;
    uint32_t word[3] = {0};
    memcpy(key, data, size < 16 ? size : 16);
    if (size >= 24) memcpy(word, data + 16, 8);
    uint32_t bearer = word[1] % 40, direction = word[1] / 256 % 3;
    uint8_t *text = copy(&into, data + size - n, n);
    uint8_t *plain = copy(&from, text, n);
    uint32_t wanted = bearer < 32 && direction < 2 ? ZUB_DONE : ZUB_RANGE;
    CHECK(zub_eea2(key, word[0], bearer, direction, text, n) == wanted);
    if (wanted == ZUB_DONE) CHECK(zub_eea2(key, word[0], bearer, direction, text, n) == wanted);
    CHECK(n == 0 || memcmp(text, plain, n) == 0);
    CHECK(zub_eia2(key, word[0], bearer, direction, plain, n, tag) == wanted);
}

static void fuzz_mac(uint32_t direction, size_t room, const uint8_t *data, size_t size) {
    uint8_t *block = copy(&from, data, size);
    zub_mac_item *items = (zub_mac_item *)(void *)take(&things, room * sizeof *items);
    zub_refusal refusal = {0, 0};
    size_t count, least, again;
    uint32_t answer = zub_mac_read(direction, block, size, items, room, &count, &refusal);
    if (answer == ZUB_REFUSED) CHECK(refusal.at <= size && refusal.why >= 1 && refusal.why <= 5);
    if (answer != ZUB_DONE) return;
    CHECK(count <= room);
    /* without its padding the block is written anew, and gives the same items */
    size_t kept = 0;
    for (size_t i = 0; i < count; i++) {
        CHECK(lies(items[i].octets, items[i].length));
        if (items[i].kind == ZUB_MAC_SDU || items[i].kind >= ZUB_MAC_CONTENTION) items[kept++] = items[i];
    }
    uint8_t *written = take(&into, size + 8);
    answer = zub_mac_write(direction, items, kept, written, size + 8, &least);
    if (answer != ZUB_DONE) return;
    zub_mac_item *back = (zub_mac_item *)(void *)take(&others, (kept + 4) * sizeof *back);
    CHECK(zub_mac_read(direction, written, size + 8, back, kept + 4, &again, &refusal) == ZUB_DONE);
    for (size_t i = 0, k = 0; i < again; i++) {
        if (back[i].kind == ZUB_MAC_FRONT || back[i].kind == ZUB_MAC_PADDING) continue;
        CHECK(k < kept && back[i].kind == items[k].kind && back[i].lcid == items[k].lcid);
        CHECK(back[i].length == items[k].length && memcmp(back[i].octets, items[k].octets, items[k].length) == 0);
        CHECK(memcmp(back[i].fields, items[k].fields, 8) == 0);
        k++;
    }
}

static void fuzz_rlc(uint32_t bits, size_t room, const uint8_t *data, size_t size) {
    uint8_t *pdu = copy(&from, data, size);
    zub_rlc_element *elements = (zub_rlc_element *)(void *)take(&things, room * sizeof *elements);
    zub_rlc_nack *nacks = (zub_rlc_nack *)(void *)take(&others, room * sizeof *nacks);
    zub_rlc_header header;
    zub_refusal refusal = {0, 0};
    size_t count, length;
    uint32_t answer = bits != 0 ? zub_umd_read(bits, pdu, size, &header, elements, room, &count, &refusal)
                                : zub_am_read(pdu, size, &header, elements, room, nacks, room, &count, &refusal);
    if (answer == ZUB_REFUSED) CHECK(refusal.at <= size && refusal.why >= 1 && refusal.why <= 7);
    if (answer != ZUB_DONE) return;
    CHECK(count <= room);
    uint8_t *written = take(&into, size);
    if (header.kind == ZUB_RLC_STATUS) {
        answer = zub_status_write(header.sn, nacks, count, written, size, &length);
    } else {
        for (size_t i = 0; i < count; i++) CHECK(lies(elements[i].octets, elements[i].length));
        answer = bits != 0 ? zub_umd_write(bits, &header, elements, count, written, size, &length)
                           : zub_amd_write(&header, elements, count, written, size, &length);
    }
    /* it is as long as what was read; a part of a STATUS may be written that isn't in order */
    CHECK(answer == ZUB_DONE && length == size);
}

static void fuzz_pdcp(uint32_t bits, size_t room, const uint8_t *data, size_t size) {
    uint8_t *pdu = copy(&from, data, size);
    zub_pdcp_pdu fields;
    zub_refusal refusal = {0, 0};
    size_t length;
    uint32_t answer = bits == 5 ? zub_pdcp_srb_read(pdu, size, &fields, &refusal)
                                : zub_pdcp_user_read(bits, pdu, size, &fields, &refusal);
    if (answer == ZUB_REFUSED) CHECK(refusal.at <= size && refusal.why >= 1 && refusal.why <= 3);
    if (answer != ZUB_DONE) return;
    CHECK(lies(fields.octets, fields.length));
    uint8_t *written = take(&into, room);
    answer = bits == 5 ? zub_pdcp_srb_write(&fields, written, room, &length)
                       : zub_pdcp_user_write(bits, &fields, written, room, &length);
    if (answer == ZUB_DONE || answer == ZUB_ROOM) CHECK(length == size && (answer == ZUB_DONE) == (size <= room));
}

/* Structs of any values, as a caller may fill them. */
static void fuzz_fields(const uint8_t *data, size_t size) {
    static const uint8_t octets[3] = {1, 2, 3};
    uint32_t words[8] = {0};
    memcpy(words, data, size < sizeof words ? size : sizeof words);
    zub_rlc_header header = {words[0] % 6, words[1] % 2048, (uint8_t)words[2], (uint8_t)(words[2] >> 8),
                             (uint8_t)(words[2] >> 16), words[3]};
    zub_rlc_element elements[2] = {{octets, words[4] % 4}, {octets, words[4] / 4 % 4}};
    zub_rlc_nack nacks[2] = {{words[1], words[2] % 3, words[3], words[4]}, {1, 0, 0, 0}};
    zub_mac_item items[2] = {{words[0] % 26, words[1] % 16, octets, words[4] % 4, words[5], {0}},
                             {words[5] % 26, words[6] % 16, octets, words[7] % 4, 0, {1, 1, 1, 1, 0, 0, 0, 0}}};
    zub_pdcp_pdu fields = {words[0] % 4, words[1] % 40000, octets, words[4] % 4, {0}};
    size_t length, room = words[7] % 32;
    uint8_t *written = take(&into, room);
    memcpy(items[0].fields, words + 2, 8);
    zub_umd_write(words[6] % 12, &header, elements, words[5] % 3, written, room, &length);
    zub_amd_write(&header, elements, words[5] % 3, written, room, &length);
    zub_status_write(words[6] % 2000, nacks, words[5] % 3, written, room, &length);
    zub_mac_write(words[6] % 3, items, words[5] % 3, written, room, &length);
    zub_pdcp_user_write(words[6] % 16, &fields, written, room, &length);
    zub_pdcp_srb_write(&fields, written, room, &length);
}

#ifndef FUZZ_CODECS
static void fuzz_texts(int decode, size_t room, const uint8_t *data, size_t size) {
    uint8_t *text = copy(&from, data, size);
    uint8_t *journal = take(&into, room);
    uint8_t *message = take(&things, 64);
    size_t length = 0, told = 0;
    uint32_t answer = decode ? zub_decode(text, size, journal, room, &length, message, 64, &told)
                             : zub_run(text, size, journal, room, &length, message, 64, &told);
    CHECK(answer == ZUB_DONE || answer == ZUB_REFUSED || answer == ZUB_ROOM);
    CHECK(told < 64 && (answer == ZUB_ROOM) == (length > room));
    if (answer == ZUB_REFUSED) CHECK(told > 8 && memcmp(message, "line ", 5) == 0);
}
#endif

int LLVMFuzzerTestOneInput(const uint8_t *data, size_t size);
int LLVMFuzzerTestOneInput(const uint8_t *data, size_t size) {
    static const uint32_t um_bits[3] = {5, 10, 0}, pdcp_bits[4] = {5, 7, 12, 15};
    if (size < 3 || size > MOST) return 0;
    size_t room = data[1] % 64u + (data[1] >= 128 ? THINGS : 0u);
    uint32_t pick = data[2];
    const uint8_t *rest = data + 3;
    size -= 3;
    switch (data[0] % 7) {
    case 0: fuzz_ciphers(rest, size); break;
    case 1: fuzz_mac(pick % 3, room, rest, size); break;
    case 2: fuzz_rlc(um_bits[pick % 3], room, rest, size); break;
    case 3: fuzz_pdcp(pdcp_bits[pick % 4], room, rest, size); break;
#ifndef FUZZ_CODECS
    case 5: fuzz_texts(0, room, rest, size); break;
    case 6: fuzz_texts(1, room, rest, size); break;
#endif
    default: fuzz_fields(rest, size); break;
    }
    if (from.end != NULL) look(&from);
    if (into.end != NULL) look(&into);
    if (things.end != NULL) look(&things);
    if (others.end != NULL) look(&others);
    return 0;
}

#ifdef FUZZ_DRIVER
/* fuzz RUNS [SEED]: inputs drawn by a generator of its own, short ones more often. */
static uint64_t state;

static uint64_t draw(void) {
    state ^= state << 13;
    state ^= state >> 7;
    state ^= state << 17;
    return state;
}

int main(int argc, char **argv) {
    static uint8_t data[MOST];
    long runs = argc > 1 ? atol(argv[1]) : 100000;
    state = argc > 2 ? strtoull(argv[2], NULL, 10) | 1 : 88172645463325252u;
    for (long run = 0; run < runs; run++) {
        size_t size = 3 + draw() % (draw() % 8 == 0 ? MOST - 3 : 48);
        for (size_t i = 0; i < size; i++) data[i] = (uint8_t)draw();
        LLVMFuzzerTestOneInput(data, size);
    }
    printf("fuzz: %ld inputs passed\n", runs);
    return 0;
}
#endif
