/*
 * Zubhanit: the proved parts of an LTE layer 2, for C and C++ (docs/C.md).
 *
 * Call the functions zub_...: they test pointers, and then call the proved exports zubhanit_..., which test numbers and
 * lengths. Link libzubhanit.a, or libzubhanit_codecs.a, which lacks zub_run and zub_decode; ./l2 --build leaves both in
 * crates/l2_c/out.
 *
 * What a caller owes, since no call can test it:
 *   - A pointer that isn't null points to as many things as its length says, aligned as their type is.
 *   - What a call writes overlaps nothing else that it is given.
 *   - What is read points into the block or PDU that was given: it is good while that stands unchanged.
 *   - No call runs in a signal handler, or in the forked child of a process with threads. Otherwise calls keep nothing
 *     between them, so that any thread may make any call, with memory of its own.
 *
 * The library keeps no handle and no state: all that lives between calls is the caller's. The calls that are said to
 * take memory take it by malloc and give it back before they return.
 */
#ifndef ZUBHANIT_H
#define ZUBHANIT_H

#include <stddef.h>
#include <stdint.h>

#ifdef __cplusplus
extern "C" {
#endif

/* ---- what a call answers */

#define ZUB_DONE 0u      /* all is done */
#define ZUB_NULL 1u      /* a pointer is null that may not be; nothing is written */
#define ZUB_RANGE 2u     /* a number or a length is out of its range; nothing is written but counts and sizes of 0 */
#define ZUB_REFUSED 3u   /* what was to be read is refused: where and why, the refusal or the message says */
#define ZUB_ROOM 4u      /* there is too little room; a call with a `size` or `least` tells how much it needs */
#define ZUB_NO_MEMORY 7u /* memory ran out */

/* `direction` */
#define ZUB_UPLINK 0u
#define ZUB_DOWNLINK 1u

/* Where what was to be read is refused: the octet, counted from 0, and the number of the reason, which each call's
 * comment lists. */
typedef struct zub_refusal {
    uint32_t at;
    uint32_t why;
} zub_refusal;

/* ---- ciphers (TS 33.401 Annex B) */

/* 128-EEA2: ciphers or deciphers `text` of `text_len` octets in place; both are the same. `count` is the COUNT of the
 * PDU, `bearer` its radio bearer's identity less 1 (0 to 31). Takes no memory. */
static inline uint32_t zub_eea2(const uint8_t key[16], uint32_t count, uint32_t bearer, uint32_t direction,
                                uint8_t *text, size_t text_len);

/* 128-EIA2: the code MAC-I of `message` of `message_len` octets. Takes no memory. */
static inline uint32_t zub_eia2(const uint8_t key[16], uint32_t count, uint32_t bearer, uint32_t direction,
                                const uint8_t *message, size_t message_len, uint8_t tag[4]);

/* ---- MAC PDUs (TS 36.321 6.1.2) */

/* The kinds of items, and the fields of control elements. */
#define ZUB_MAC_FRONT 0u            /* padding in front */
#define ZUB_MAC_SDU 1u              /* an SDU */
#define ZUB_MAC_PADDING 2u          /* padding at the end */
#define ZUB_MAC_CONTENTION 16u      /* downlink: the contention resolution identity, fields 0 to 5 */
#define ZUB_MAC_ADVANCE 17u         /* downlink: the timing advance command, field 0, 0 to 63 */
#define ZUB_MAC_DRX 18u             /* downlink: the DRX command */
#define ZUB_MAC_HEADROOM 19u        /* uplink: the power headroom level, field 0, 0 to 63 */
#define ZUB_MAC_CRNTI 20u           /* uplink: the C-RNTI, fields 0 and 1, the high octet first */
#define ZUB_MAC_TRUNCATED_REPORT 21u /* uplink: buffer status, field 0 the group, 0 to 3, field 1 the level, 0 to 63 */
#define ZUB_MAC_SHORT_REPORT 22u    /* uplink: the same, of the one group that has data */
#define ZUB_MAC_LONG_REPORT 23u     /* uplink: the levels of groups 0 to 3, fields 0 to 3 */

typedef struct zub_mac_item {
    uint32_t kind;
    uint32_t lcid;         /* of an SDU: its logical channel, 0 to 10 */
    const uint8_t *octets; /* of an SDU; those that are read lie in the block. Never null: zub_nothing where there are none */
    size_t length;         /* how many octets */
    uint32_t padding;      /* at the end: how many octets of padding there are behind its subheader */
    uint8_t fields[8];     /* of a control element */
} zub_mac_item;

/* Reads a block of 1 to 2^28 - 1 octets into `items`, in the order of subheaders; `count` tells how many there are. A
 * block has at most as many items as octets. Takes no memory.
 *
 * Refusals: 1 the block ends before a subheader does, 2 a reserved LCID, 3 a payload past the block, 4 a control element
 * behind an SDU, 5 padding out of place. */
static inline uint32_t zub_mac_read(uint32_t direction, const uint8_t *block, size_t block_len, zub_mac_item *items,
                                    size_t items_len, size_t *count, zub_refusal *refusal);

/* Writes the canonical block of the items over all of `block`, of 1 to 2^28 - 1 octets: control elements of the direction
 * before SDUs of 1 to 32,767 octets, at most 4096 items, and padding as it is needed. `least` tells how many octets the
 * smallest block has that holds them. Takes memory. */
static inline uint32_t zub_mac_write(uint32_t direction, const zub_mac_item *items, size_t items_len, uint8_t *block,
                                     size_t block_len, size_t *least);

/* ---- RLC PDUs (TS 36.322 6.2.1) */

#define ZUB_RLC_UMD 0u
#define ZUB_RLC_AMD 1u
#define ZUB_RLC_SEGMENT 2u /* a segment of an AMD PDU */
#define ZUB_RLC_STATUS 3u

typedef struct zub_rlc_header {
    uint32_t kind;
    uint32_t sn;  /* the number, or the ACK_SN of a STATUS */
    uint8_t fi;   /* the framing info, 0 to 3 */
    uint8_t poll; /* of an AMD PDU: 1 where it asks for a STATUS, else 0 */
    uint8_t last; /* of a segment: 1 where it ends the AMD PDU's data field, else 0 */
    uint32_t so;  /* of a segment: the place of its first octet in that field, 0 to 32,767 */
} zub_rlc_header;

/* An element of a data field. */
typedef struct zub_rlc_element {
    const uint8_t *octets; /* those that are read lie in the PDU; never null */
    size_t length;
} zub_rlc_element;

/* An entry of a STATUS. */
typedef struct zub_rlc_nack {
    uint32_t sn;       /* 0 to 1023 */
    uint32_t has_part; /* 1 where a part is missing, else 0 */
    uint32_t start;    /* the places of the first and of the last missing octet, 0 to 32,767, start not above end; */
    uint32_t end;      /* an end of 32,767 is the field's last octet */
} zub_rlc_nack;

/* Reads a UMD PDU of fewer than 2^28 octets, whose numbers have 5 or 10 `bits`: its header, and into `elements` what its
 * field carries; `count` tells how many there are. A PDU has at most as many elements as octets. Takes no memory.
 *
 * Refusals: 1 the PDU ends within its header, 2 a length indicator of 0, 3 one that leaves no octet to the element behind
 * it, 4 a data PDU without data, 5 a reserved type of control PDU, 6 an end below its start, 7 octets behind a STATUS. */
static inline uint32_t zub_umd_read(uint32_t bits, const uint8_t *pdu, size_t pdu_len, zub_rlc_header *header,
                                    zub_rlc_element *elements, size_t elements_len, size_t *count,
                                    zub_refusal *refusal);

/* Reads a PDU of an acknowledged bearer likewise: by the header's kind `count` tells of `elements`, or of `nacks` where it
 * is a STATUS. Takes no memory. */
static inline uint32_t zub_am_read(const uint8_t *pdu, size_t pdu_len, zub_rlc_header *header,
                                   zub_rlc_element *elements, size_t elements_len, zub_rlc_nack *nacks,
                                   size_t nacks_len, size_t *count, zub_refusal *refusal);

/* Writes a PDU to the front of `pdu`, and leaves what stands behind it; `size` tells how many octets it has. The elements
 * of a data PDU are one or more and not empty, each but the last has fewer than 2,048 octets and the last fewer than 2^28.
 * Take memory. */
static inline uint32_t zub_umd_write(uint32_t bits, const zub_rlc_header *header, const zub_rlc_element *elements,
                                     size_t elements_len, uint8_t *pdu, size_t pdu_len, size_t *size);
static inline uint32_t zub_amd_write(const zub_rlc_header *header, const zub_rlc_element *elements, size_t elements_len,
                                     uint8_t *pdu, size_t pdu_len, size_t *size);
static inline uint32_t zub_status_write(uint32_t ack, const zub_rlc_nack *nacks, size_t nacks_len, uint8_t *pdu,
                                        size_t pdu_len, size_t *size);

/* ---- PDCP PDUs (TS 36.323 6.2) */

#define ZUB_PDCP_DATA 0u
#define ZUB_PDCP_REPORT 1u     /* a status report */
#define ZUB_PDCP_SIGNALLING 2u /* of a signalling bearer */

typedef struct zub_pdcp_pdu {
    uint32_t kind;
    uint32_t sn;           /* the sequence number, or the first missing one of a status report */
    const uint8_t *octets; /* the data part, or the bitmap; what is read lies in the PDU; never null */
    size_t length;
    uint8_t tag[4]; /* of a signalling bearer: the MAC-I */
} zub_pdcp_pdu;

/* Reads a PDU of a data bearer, whose numbers have 7, 12 or 15 `bits`. Takes no memory.
 *
 * Refusals: 1 the PDU ends within its header, or before its MAC-I and one octet of data, 2 a control PDU that is no status
 * report, 3 no data. */
static inline uint32_t zub_pdcp_user_read(uint32_t bits, const uint8_t *pdu, size_t pdu_len, zub_pdcp_pdu *fields,
                                          zub_refusal *refusal);

/* Reads a PDU of a signalling bearer, whose numbers have 5 bits. Takes no memory. */
static inline uint32_t zub_pdcp_srb_read(const uint8_t *pdu, size_t pdu_len, zub_pdcp_pdu *fields, zub_refusal *refusal);

/* Write a PDU to the front of `pdu`, and leave what stands behind it; `size` tells how many octets it has. A data part has
 * 1 octet or more. A status report has numbers of 12 or 15 bits, and the last octet of its bitmap isn't 0. Take memory. */
static inline uint32_t zub_pdcp_user_write(uint32_t bits, const zub_pdcp_pdu *fields, uint8_t *pdu, size_t pdu_len,
                                           size_t *size);
static inline uint32_t zub_pdcp_srb_write(const zub_pdcp_pdu *fields, uint8_t *pdu, size_t pdu_len, size_t *size);

/* ---- texts */

/* Play a script as `l2 run` does, and show the blocks of a text as `l2 decode` does: the journal goes to the front of
 * `journal`, and `size` tells how many octets it has. ZUB_REFUSED says that a line of the text is refused: the journal is
 * that of the lines before it, and the front of `message` has "line N: REASON" with a line feed, of `message_size` octets
 * (fewer than 64). ZUB_ROOM says that one of the two has too little room, tells both sizes, and writes nothing. Take
 * memory, in the size of the text and of the journal, which may be long. */
static inline uint32_t zub_run(const uint8_t *script, size_t script_len, uint8_t *journal, size_t journal_len,
                               size_t *size, uint8_t *message, size_t message_len, size_t *message_size);
static inline uint32_t zub_decode(const uint8_t *blocks, size_t blocks_len, uint8_t *journal, size_t journal_len,
                                  size_t *size, uint8_t *message, size_t message_len, size_t *message_size);

/* ---- the exports: as the functions above, with no pointer that is null */

uint32_t zubhanit_eea2(const uint8_t key[16], uint32_t count, uint32_t bearer, uint32_t direction, uint8_t *text,
                       size_t text_len);
uint32_t zubhanit_eia2(const uint8_t key[16], uint32_t count, uint32_t bearer, uint32_t direction,
                       const uint8_t *message, size_t message_len, uint8_t tag[4]);
uint32_t zubhanit_mac_read(uint32_t direction, const uint8_t *block, size_t block_len, zub_mac_item *items,
                           size_t items_len, size_t *count, zub_refusal *refusal);
uint32_t zubhanit_mac_write(uint32_t direction, const zub_mac_item *items, size_t items_len, uint8_t *block,
                            size_t block_len, size_t *least);
uint32_t zubhanit_umd_read(uint32_t bits, const uint8_t *pdu, size_t pdu_len, zub_rlc_header *header,
                           zub_rlc_element *elements, size_t elements_len, size_t *count, zub_refusal *refusal);
uint32_t zubhanit_am_read(const uint8_t *pdu, size_t pdu_len, zub_rlc_header *header, zub_rlc_element *elements,
                          size_t elements_len, zub_rlc_nack *nacks, size_t nacks_len, size_t *count,
                          zub_refusal *refusal);
uint32_t zubhanit_umd_write(uint32_t bits, const zub_rlc_header *header, const zub_rlc_element *elements,
                            size_t elements_len, uint8_t *pdu, size_t pdu_len, size_t *size);
uint32_t zubhanit_amd_write(const zub_rlc_header *header, const zub_rlc_element *elements, size_t elements_len,
                            uint8_t *pdu, size_t pdu_len, size_t *size);
uint32_t zubhanit_status_write(uint32_t ack, const zub_rlc_nack *nacks, size_t nacks_len, uint8_t *pdu, size_t pdu_len,
                               size_t *size);
uint32_t zubhanit_pdcp_user_read(uint32_t bits, const uint8_t *pdu, size_t pdu_len, zub_pdcp_pdu *fields,
                                 zub_refusal *refusal);
uint32_t zubhanit_pdcp_srb_read(const uint8_t *pdu, size_t pdu_len, zub_pdcp_pdu *fields, zub_refusal *refusal);
uint32_t zubhanit_pdcp_user_write(uint32_t bits, const zub_pdcp_pdu *fields, uint8_t *pdu, size_t pdu_len, size_t *size);
uint32_t zubhanit_pdcp_srb_write(const zub_pdcp_pdu *fields, uint8_t *pdu, size_t pdu_len, size_t *size);
uint32_t zubhanit_run(const uint8_t *script, size_t script_len, uint8_t *journal, size_t journal_len, size_t *size,
                      uint8_t *message, size_t message_len, size_t *message_size);
uint32_t zubhanit_decode(const uint8_t *blocks, size_t blocks_len, uint8_t *journal, size_t journal_len, size_t *size,
                         uint8_t *message, size_t message_len, size_t *message_size);

/* ---- the tests of pointers */

/* What points to no octet. */
static uint8_t zub_nothing[1] = {0};

/* Octets may be null where there are none. */
static inline int zub_is_bad(const uint8_t *octets, size_t length) { return octets == NULL && length != 0; }
static inline const uint8_t *zub_from(const uint8_t *octets) { return octets == NULL ? zub_nothing : octets; }
static inline uint8_t *zub_into(uint8_t *octets) { return octets == NULL ? zub_nothing : octets; }

static inline uint32_t zub_eea2(const uint8_t key[16], uint32_t count, uint32_t bearer, uint32_t direction,
                                uint8_t *text, size_t text_len) {
    if (key == NULL || zub_is_bad(text, text_len)) return ZUB_NULL;
    return zubhanit_eea2(key, count, bearer, direction, zub_into(text), text_len);
}

static inline uint32_t zub_eia2(const uint8_t key[16], uint32_t count, uint32_t bearer, uint32_t direction,
                                const uint8_t *message, size_t message_len, uint8_t tag[4]) {
    if (key == NULL || tag == NULL || zub_is_bad(message, message_len)) return ZUB_NULL;
    return zubhanit_eia2(key, count, bearer, direction, zub_from(message), message_len, tag);
}

static inline uint32_t zub_mac_read(uint32_t direction, const uint8_t *block, size_t block_len, zub_mac_item *items,
                                    size_t items_len, size_t *count, zub_refusal *refusal) {
    size_t i;
    if (zub_is_bad(block, block_len) || items == NULL || count == NULL || refusal == NULL) return ZUB_NULL;
    for (i = 0; i < items_len; i++) {
        items[i].octets = zub_nothing;
        items[i].length = 0;
    }
    return zubhanit_mac_read(direction, zub_from(block), block_len, items, items_len, count, refusal);
}

static inline uint32_t zub_mac_write(uint32_t direction, const zub_mac_item *items, size_t items_len, uint8_t *block,
                                     size_t block_len, size_t *least) {
    size_t i;
    if (items == NULL || least == NULL || zub_is_bad(block, block_len)) return ZUB_NULL;
    for (i = 0; i < items_len; i++)
        if (items[i].octets == NULL) return ZUB_NULL;
    return zubhanit_mac_write(direction, items, items_len, zub_into(block), block_len, least);
}

static inline void zub_no_elements(zub_rlc_element *elements, size_t elements_len) {
    size_t i;
    for (i = 0; i < elements_len; i++) {
        elements[i].octets = zub_nothing;
        elements[i].length = 0;
    }
}

static inline uint32_t zub_umd_read(uint32_t bits, const uint8_t *pdu, size_t pdu_len, zub_rlc_header *header,
                                    zub_rlc_element *elements, size_t elements_len, size_t *count,
                                    zub_refusal *refusal) {
    if (zub_is_bad(pdu, pdu_len) || header == NULL || elements == NULL || count == NULL || refusal == NULL)
        return ZUB_NULL;
    zub_no_elements(elements, elements_len);
    return zubhanit_umd_read(bits, zub_from(pdu), pdu_len, header, elements, elements_len, count, refusal);
}

static inline uint32_t zub_am_read(const uint8_t *pdu, size_t pdu_len, zub_rlc_header *header,
                                   zub_rlc_element *elements, size_t elements_len, zub_rlc_nack *nacks,
                                   size_t nacks_len, size_t *count, zub_refusal *refusal) {
    if (zub_is_bad(pdu, pdu_len) || header == NULL || elements == NULL || nacks == NULL || count == NULL
        || refusal == NULL)
        return ZUB_NULL;
    zub_no_elements(elements, elements_len);
    return zubhanit_am_read(zub_from(pdu), pdu_len, header, elements, elements_len, nacks, nacks_len, count, refusal);
}

static inline int zub_are_bad(const zub_rlc_element *elements, size_t elements_len) {
    size_t i;
    if (elements == NULL) return 1;
    for (i = 0; i < elements_len; i++)
        if (elements[i].octets == NULL) return 1;
    return 0;
}

static inline uint32_t zub_umd_write(uint32_t bits, const zub_rlc_header *header, const zub_rlc_element *elements,
                                     size_t elements_len, uint8_t *pdu, size_t pdu_len, size_t *size) {
    if (header == NULL || zub_are_bad(elements, elements_len) || zub_is_bad(pdu, pdu_len) || size == NULL)
        return ZUB_NULL;
    return zubhanit_umd_write(bits, header, elements, elements_len, zub_into(pdu), pdu_len, size);
}

static inline uint32_t zub_amd_write(const zub_rlc_header *header, const zub_rlc_element *elements, size_t elements_len,
                                     uint8_t *pdu, size_t pdu_len, size_t *size) {
    if (header == NULL || zub_are_bad(elements, elements_len) || zub_is_bad(pdu, pdu_len) || size == NULL)
        return ZUB_NULL;
    return zubhanit_amd_write(header, elements, elements_len, zub_into(pdu), pdu_len, size);
}

static inline uint32_t zub_status_write(uint32_t ack, const zub_rlc_nack *nacks, size_t nacks_len, uint8_t *pdu,
                                        size_t pdu_len, size_t *size) {
    if (nacks == NULL || zub_is_bad(pdu, pdu_len) || size == NULL) return ZUB_NULL;
    return zubhanit_status_write(ack, nacks, nacks_len, zub_into(pdu), pdu_len, size);
}

static inline uint32_t zub_pdcp_user_read(uint32_t bits, const uint8_t *pdu, size_t pdu_len, zub_pdcp_pdu *fields,
                                          zub_refusal *refusal) {
    if (zub_is_bad(pdu, pdu_len) || fields == NULL || refusal == NULL) return ZUB_NULL;
    fields->octets = zub_nothing;
    fields->length = 0;
    return zubhanit_pdcp_user_read(bits, zub_from(pdu), pdu_len, fields, refusal);
}

static inline uint32_t zub_pdcp_srb_read(const uint8_t *pdu, size_t pdu_len, zub_pdcp_pdu *fields, zub_refusal *refusal) {
    if (zub_is_bad(pdu, pdu_len) || fields == NULL || refusal == NULL) return ZUB_NULL;
    fields->octets = zub_nothing;
    fields->length = 0;
    return zubhanit_pdcp_srb_read(zub_from(pdu), pdu_len, fields, refusal);
}

static inline uint32_t zub_pdcp_user_write(uint32_t bits, const zub_pdcp_pdu *fields, uint8_t *pdu, size_t pdu_len,
                                           size_t *size) {
    if (fields == NULL || fields->octets == NULL || zub_is_bad(pdu, pdu_len) || size == NULL) return ZUB_NULL;
    return zubhanit_pdcp_user_write(bits, fields, zub_into(pdu), pdu_len, size);
}

static inline uint32_t zub_pdcp_srb_write(const zub_pdcp_pdu *fields, uint8_t *pdu, size_t pdu_len, size_t *size) {
    if (fields == NULL || fields->octets == NULL || zub_is_bad(pdu, pdu_len) || size == NULL) return ZUB_NULL;
    return zubhanit_pdcp_srb_write(fields, zub_into(pdu), pdu_len, size);
}

static inline uint32_t zub_run(const uint8_t *script, size_t script_len, uint8_t *journal, size_t journal_len,
                               size_t *size, uint8_t *message, size_t message_len, size_t *message_size) {
    if (zub_is_bad(script, script_len) || zub_is_bad(journal, journal_len) || size == NULL
        || zub_is_bad(message, message_len) || message_size == NULL)
        return ZUB_NULL;
    return zubhanit_run(zub_from(script), script_len, zub_into(journal), journal_len, size, zub_into(message),
                        message_len, message_size);
}

static inline uint32_t zub_decode(const uint8_t *blocks, size_t blocks_len, uint8_t *journal, size_t journal_len,
                                  size_t *size, uint8_t *message, size_t message_len, size_t *message_size) {
    if (zub_is_bad(blocks, blocks_len) || zub_is_bad(journal, journal_len) || size == NULL
        || zub_is_bad(message, message_len) || message_size == NULL)
        return ZUB_NULL;
    return zubhanit_decode(zub_from(blocks), blocks_len, zub_into(journal), journal_len, size, zub_into(message),
                           message_len, message_size);
}

#ifdef __cplusplus
}
#endif

#endif
