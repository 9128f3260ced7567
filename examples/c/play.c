/* Plays a script over both ends and prints its journal. */
#include "zubhanit.h"

#include <stdio.h>
#include <string.h>

/* The journal of a script, with the room that it needs. */
static int print_journal(const char *script) {
    static uint8_t journal[4096];
    uint8_t message[64];
    size_t size, message_size;
    const uint8_t *octets = (const uint8_t *)script;
    uint32_t answer = zub_run(octets, strlen(script), journal, 8, &size, message, sizeof message, &message_size);
    if (answer == ZUB_ROOM) {
        printf("a journal of %zu octets:\n", size);
        answer = zub_run(octets, strlen(script), journal, sizeof journal, &size, message, sizeof message, &message_size);
    }
    if (answer != ZUB_DONE && answer != ZUB_REFUSED) return 1;
    printf("%.*s%.*s", (int)size, (const char *)journal, (int)message_size, (const char *)message);
    return 0;
}

int main(void) { return print_journal("bearer 0 tm\nsubmit nb 0 0a0b0c\ntti 0 ok 4 ok\ntti 0 ok\n"); }
