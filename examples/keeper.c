/*
 * Keeps one register over all messages of standard input, however many there are, and prints the lines
 * of their entries; at the end, the state of each account with no undecided event applied.
 *
 * From the root of the repository:
 *   tools/build live
 *   gcc -std=c99 -O2 -Wall -Wextra -pedantic -Iinclude examples/keeper.c target/staticlib/liblive.a -o target/keeper
 *   samples/messages encode < samples/first.lines | target/keeper
 *
 * Where it stops, and how it goes on behind a refused message, is docs/REGISTER.md, 11.5.
 */
#include <stdio.h>
#include <stdlib.h>

#include "nacozteya.h"

#define ACCOUNTS (NACOZTEYA_REGISTER_WORDS / NACOZTEYA_ACCOUNT_WORDS)

/* The register: static, and so zeroed, and so fresh. */
static uint32_t image[NACOZTEYA_REGISTER_WORDS];

/* The whole length of a message of a kind, and 0 for a kind that is none. */
static size_t message_length(uint8_t kind)
{
    return kind >= 1 && kind <= 3 ? 15 : kind >= 4 && kind <= 6 ? 11 : 0;
}

/* Prints the lines of the entries that a call wrote. */
static void print_entries(const uint8_t *entries, size_t written)
{
    uint8_t line[NACOZTEYA_LONGEST_LINE];
    uint64_t counts[NACOZTEYA_LINE_COUNTS];
    size_t at = 0;

    while (at < written) {
        uint64_t length = nacozteya_line(entries + at, written - at, line, sizeof line, counts, NACOZTEYA_LINE_COUNTS);
        if (length == 0) {
            return;
        }
        fwrite(line, 1, (size_t)length, stdout);
        at += (size_t)counts[NACOZTEYA_LINE_ENTRY];
    }
}

/* Sends one message; how many bytes lie behind it is returned, or 0 where nothing more is read. */
static size_t send_message(const uint8_t *message, size_t length, uint64_t *refused)
{
    uint8_t entries[NACOZTEYA_LONGEST_CALL];
    uint64_t counts[NACOZTEYA_CALL_COUNTS];
    uint64_t refusal = nacozteya_call(image, NACOZTEYA_REGISTER_WORDS, message, length, entries, sizeof entries,
                                      counts, NACOZTEYA_CALL_COUNTS);

    if (refusal == 0) {
        print_entries(entries, (size_t)counts[NACOZTEYA_CALL_WRITTEN]);
        return (size_t)counts[NACOZTEYA_CALL_CONSUMED];
    }
    *refused += 1;
    printf("refused %llu\n", (unsigned long long)refusal);
    return refusal <= 2 ? 0 : message_length(message[0]);
}

/* Prints the state of each account. */
static void print_accounts(void)
{
    static const char *const lives[] = {"new", "opened", "closed"};
    uint32_t state[NACOZTEYA_STATE];
    uint16_t account;

    for (account = 0; account < ACCOUNTS; account++) {
        if (nacozteya_outlook(image, NACOZTEYA_REGISTER_WORDS, account, 0, state, NACOZTEYA_STATE) == 0) {
            printf("account %u %s %lu\n", (unsigned)account, lives[state[NACOZTEYA_LIFE]],
                   (unsigned long)state[NACOZTEYA_BALANCE]);
        }
    }
}

/* All of standard input; its length is stored. */
static uint8_t *read_all(size_t *length)
{
    size_t room = 65536;
    uint8_t *bytes = malloc(room);

    *length = 0;
    while (bytes != NULL) {
        size_t got = fread(bytes + *length, 1, room - *length, stdin);
        *length += got;
        if (got == 0) {
            return bytes;
        }
        if (*length == room) {
            uint8_t *more = realloc(bytes, room *= 2);
            if (more == NULL) {
                free(bytes);
            }
            bytes = more;
        }
    }
    return NULL;
}

int main(void)
{
    size_t length;
    uint8_t *messages = read_all(&length);
    uint64_t met = 0, refused = 0;
    size_t at = 0;

    if (messages == NULL) {
        return 1;
    }
    printf("register 1\n");
    while (at < length) {
        size_t passed = send_message(messages + at, length - at, &refused);
        met++;
        if (passed == 0) {
            break;
        }
        at += passed;
    }
    printf("end %llu %llu\n", (unsigned long long)met, (unsigned long long)refused);
    print_accounts();
    free(messages);
    return 0;
}
