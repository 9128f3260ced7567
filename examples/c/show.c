/* Ciphers a text, writes a block, reads it again and prints its fields. */
#include "zubhanit.h"

#include <stdio.h>
#include <string.h>

static void print_octets(const uint8_t *octets, size_t length) {
    for (size_t i = 0; i < length; i++) printf("%02x", octets[i]);
}

/* Test set 1 of 128-EEA2 and test set 2 of 128-EIA2 (TS 33.401 Annex C). */
static int cipher(void) {
    static const uint8_t key[16] = {0xd3, 0xc5, 0xd5, 0x92, 0x32, 0x7f, 0xb1, 0x1c,
                                    0x40, 0x35, 0xc6, 0x68, 0x0a, 0xf8, 0xc6, 0xd1};
    static const uint8_t message[8] = {0x48, 0x45, 0x83, 0xd5, 0xaf, 0xe0, 0x82, 0xae};
    uint8_t text[31] = {0x98, 0x1b, 0xa6, 0x82, 0x4c, 0x1b, 0xfb, 0x1a, 0xb4, 0x85, 0x47, 0x20, 0x29, 0xb7, 0x1d, 0x80,
                        0x8c, 0xe3, 0x3e, 0x2c, 0xc3, 0xc0, 0xb5, 0xfc, 0x1f, 0x3d, 0xe8, 0xa6, 0xdc, 0x66, 0xb1};
    uint8_t tag[4];
    if (zub_eea2(key, 0x398a59b4, 21, ZUB_DOWNLINK, text, sizeof text) != ZUB_DONE) return 1;
    printf("128-EEA2: ");
    print_octets(text, sizeof text);
    if (zub_eia2(key, 0x398a59b4, 26, ZUB_DOWNLINK, message, sizeof message, tag) != ZUB_DONE) return 1;
    printf("\n128-EIA2: ");
    print_octets(tag, sizeof tag);
    printf("\n");
    return 0;
}

/* A block of 24 octets: a STATUS that asks for PDU 0 again, and a PDU of one PDCP PDU. */
static int write_block(uint8_t block[24]) {
    static const uint8_t data[3] = {0xaa, 0xbb, 0xcc};
    zub_pdcp_pdu sdu = {ZUB_PDCP_DATA, 7, data, sizeof data, {0}};
    zub_rlc_nack nack = {0, 0, 0, 0};
    zub_rlc_header header = {ZUB_RLC_AMD, 2, 0, 1, 0, 0};
    uint8_t pdcp[8], status[8], amd[16];
    size_t pdcp_size, status_size, amd_size, least;
    if (zub_pdcp_user_write(12, &sdu, pdcp, sizeof pdcp, &pdcp_size) != ZUB_DONE) return 1;
    zub_rlc_element element = {pdcp, pdcp_size};
    if (zub_status_write(2, &nack, 1, status, sizeof status, &status_size) != ZUB_DONE) return 1;
    if (zub_amd_write(&header, &element, 1, amd, sizeof amd, &amd_size) != ZUB_DONE) return 1;
    zub_mac_item items[3] = {
        {ZUB_MAC_SHORT_REPORT, 0, zub_nothing, 0, 0, {2, 9}},
        {ZUB_MAC_SDU, 3, status, status_size, 0, {0}},
        {ZUB_MAC_SDU, 3, amd, amd_size, 0, {0}},
    };
    return zub_mac_write(ZUB_UPLINK, items, 3, block, 24, &least) != ZUB_DONE;
}

static int print_rlc(const uint8_t *pdu, size_t length) {
    zub_rlc_header header;
    zub_rlc_element elements[8];
    zub_rlc_nack nacks[8];
    size_t count;
    zub_refusal refusal;
    uint32_t answer = zub_am_read(pdu, length, &header, elements, 8, nacks, 8, &count, &refusal);
    if (answer == ZUB_REFUSED) {
        printf("  refused at octet %u, reason %u\n", refusal.at, refusal.why);
        return 0;
    }
    if (answer != ZUB_DONE) return 1;
    if (header.kind == ZUB_RLC_STATUS) {
        printf("  STATUS: ACK_SN %u", header.sn);
        for (size_t i = 0; i < count; i++) printf(", NACK_SN %u", nacks[i].sn);
        printf("\n");
        return 0;
    }
    printf("  AMD %u, poll %u, framing %u\n", header.sn, header.poll, header.fi);
    for (size_t i = 0; i < count; i++) {
        zub_pdcp_pdu fields;
        if (zub_pdcp_user_read(12, elements[i].octets, elements[i].length, &fields, &refusal) != ZUB_DONE) return 1;
        printf("    PDCP %u: ", fields.sn);
        print_octets(fields.octets, fields.length);
        printf("\n");
    }
    return 0;
}

static int print_block(const uint8_t *block, size_t length) {
    zub_mac_item items[16];
    size_t count;
    zub_refusal refusal;
    uint32_t answer = zub_mac_read(ZUB_UPLINK, block, length, items, 16, &count, &refusal);
    printf("block ");
    print_octets(block, length);
    printf("\n");
    if (answer == ZUB_REFUSED) {
        printf("refused at octet %u, reason %u\n", refusal.at, refusal.why);
        return 0;
    }
    if (answer != ZUB_DONE) return 1;
    for (size_t i = 0; i < count; i++) {
        if (items[i].kind == ZUB_MAC_SDU) {
            printf("SDU on %u, %zu octets\n", items[i].lcid, items[i].length);
            if (print_rlc(items[i].octets, items[i].length)) return 1;
        } else if (items[i].kind == ZUB_MAC_SHORT_REPORT) {
            printf("buffer status: group %u, level %u\n", items[i].fields[0], items[i].fields[1]);
        } else if (items[i].kind == ZUB_MAC_PADDING) {
            printf("padding, %u octets\n", items[i].padding);
        }
    }
    return 0;
}

int main(void) {
    static const uint8_t cut[2] = {0x1e, 0x04};
    uint8_t block[24];
    return cipher() || write_block(block) || print_block(block, sizeof block) || print_block(cut, sizeof cut);
}
