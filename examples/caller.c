/*
 * Reads messages from standard input, runs them, and prints the four numbers and each entry in hex.
 *
 * From the root of the repository:
 *   tools/build register
 *   gcc -std=c99 -O2 -Wall -Wextra -pedantic -Iinclude examples/caller.c target/staticlib/libregister.a -o target/caller
 *   samples/messages encode < samples/first.lines | target/caller
 */
#include <stdio.h>

#include "nacozteya.h"

/* As much as the program takes; the shortest message has 11 bytes, so that there is room for every call. */
#define MOST_BYTES 65536
#define SHORTEST_MESSAGE 11

static uint8_t messages[MOST_BYTES];
static uint8_t entries[(MOST_BYTES / SHORTEST_MESSAGE + 1) * NACOZTEYA_LONGEST_CALL];

/* The whole length of an entry of a kind that a run writes, and 0 for any other. */
static size_t entry_length(uint8_t kind)
{
    switch (kind) {
    case NACOZTEYA_ENTRY_ACCEPTED:
    case NACOZTEYA_ENTRY_HELD:
        return 18;
    case NACOZTEYA_ENTRY_REJECTED:
        return 19;
    case NACOZTEYA_ENTRY_NOTED:
        return 11;
    case NACOZTEYA_ENTRY_APPLIED:
        return 20;
    case NACOZTEYA_ENTRY_DROPPED:
        return 16;
    default:
        return 0;
    }
}

/* Prints the entries, each on a line of its own. */
static void print_entries(size_t written)
{
    size_t at = 0;
    while (at < written) {
        size_t end = at + entry_length(entries[at]);
        if (end == at || written < end) {
            end = written;
        }
        for (; at < end; at++) {
            printf("%02x", entries[at]);
        }
        printf("\n");
    }
}

int main(void)
{
    uint64_t counts[NACOZTEYA_COUNTS] = {0};
    size_t length = fread(messages, 1, sizeof messages, stdin);
    uint64_t written;

    if (length == sizeof messages && getchar() != EOF) {
        printf("too long\n");
        return 1;
    }
    written = nacozteya_run(messages, length, entries, sizeof entries, counts, NACOZTEYA_COUNTS);
    printf("met %llu\n", (unsigned long long)counts[NACOZTEYA_MET]);
    printf("refused %llu\n", (unsigned long long)counts[NACOZTEYA_REFUSED]);
    printf("consumed %llu\n", (unsigned long long)counts[NACOZTEYA_CONSUMED]);
    printf("written %llu\n", (unsigned long long)counts[NACOZTEYA_WRITTEN]);
    print_entries((size_t)written);
    return 0;
}
