/*
 * Nacozteya, the register of recalibration events, for callers in C (C99).
 *
 * The libraries are target/staticlib/libregister.a, which has nacozteya_run, and
 * target/staticlib/liblive.a, which has the calls on an image and the line of an entry; `tools/build register` and
 * `tools/build live` make them for x86-64 Linux. Each function below is proved against a definition:
 * the run against `export_of` in crates/register/specs/First.antt (contract in
 * crates/register/src/export.rt), the others against `exported_call_of`, `exported_look_of` and
 * `exported_line_of` in crates/live/specs/First.antt (contracts in crates/live/src/export.rt). Nothing checks these
 * declarations against the contracts; the lengths, kinds and reasons below are tested (bindings/rust/tests).
 *
 * What the caller ensures, of every function:
 *   - no pointer is null, also where its length is 0, and each buffer is as long as its length says;
 *   - the buffers of one call do not overlap;
 *   - while a function runs nobody else writes to its buffers, or reads those that it writes to: one
 *     call on an image at a time.
 */
#ifndef NACOZTEYA_H
#define NACOZTEYA_H

#include <stddef.h>
#include <stdint.h>

#ifdef __cplusplus
extern "C" {
#endif

/* The room that a call needs in the entry buffer: with less left, its message is refused with 4. */
#define NACOZTEYA_LONGEST_CALL 323

/* The kinds of entries: the first byte of each (docs/REGISTER.md, 9.1). */
enum {
    NACOZTEYA_ENTRY_ACCEPTED = 17,
    NACOZTEYA_ENTRY_REJECTED_BEFORE = 18, /* a rejection without its reason: read, never written */
    NACOZTEYA_ENTRY_HELD = 19,
    NACOZTEYA_ENTRY_NOTED = 20,
    NACOZTEYA_ENTRY_APPLIED = 21,
    NACOZTEYA_ENTRY_DROPPED = 22,
    NACOZTEYA_ENTRY_REJECTED = 23 /* its last byte is the reason */
};

/* The reasons of a rejection (docs/REGISTER.md, 3.4 and 4.7). */
enum {
    NACOZTEYA_REASON_LIFE = 1,  /* the account is not in the life that the event asks for */
    NACOZTEYA_REASON_ZERO = 2,  /* the amount is 0 */
    NACOZTEYA_REASON_STEPS = 3, /* fewer steps are left than are to be withdrawn */
    NACOZTEYA_REASON_LIMIT = 4  /* the account would have more steps than 1,000,000 */
};

/* ---- a run of messages ---- */

/* The places of `counts`. */
enum {
    NACOZTEYA_MET = 0,      /* messages met, refused ones included */
    NACOZTEYA_REFUSED = 1,  /* messages refused */
    NACOZTEYA_CONSUMED = 2, /* bytes of messages passed, those of skipped messages included */
    NACOZTEYA_WRITTEN = 3,  /* bytes of entries written */
    NACOZTEYA_COUNTS = 4
};

/*
 * Sends messages to a fresh register, one after the other, and writes their entries one after the other.
 *
 *   messages, messages_length   the bytes of the messages; they are only read
 *   entries, entries_length     the entry buffer
 *   counts, counts_length       where the four numbers above are stored, as many as there are places;
 *                               places from the fifth on stay as they were
 *
 * Returns the length of the entries written, which is also counts[NACOZTEYA_WRITTEN].
 *
 * What is promised, for every content and every length:
 *   - each message starts where the one before it ends, and each call gets the rest of the entry buffer;
 *   - a message that is refused is met too, and counts as both; with 1 (no whole message is left) or 2
 *     (unknown kind) it is the last, with any other number the run goes on behind it. The run ends
 *     where the bytes do (docs/REGISTER.md, 11.5);
 *   - the first bytes of the entry buffer, as many as are returned, are the entries; the bytes after
 *     them are as they were;
 *   - the function returns, and reads and writes nothing but the three buffers. It keeps nothing: two
 *     runs of the same messages with entry buffers of the same length give the same entries and numbers.
 */
uint64_t nacozteya_run(const uint8_t *messages, size_t messages_length,
                       uint8_t *entries, size_t entries_length,
                       uint64_t *counts, size_t counts_length);

/* ---- a register that the caller keeps, as an image (docs/REGISTER.md, 15) ---- */

/* The words of an account, and of a register. Words that are all 0 are a fresh register. */
#define NACOZTEYA_ACCOUNT_WORDS 84
#define NACOZTEYA_REGISTER_WORDS 1344

/* The places of a call's `counts`. */
enum {
    NACOZTEYA_CALL_CONSUMED = 0, /* bytes that the message has; 0 where it is refused */
    NACOZTEYA_CALL_WRITTEN = 1,  /* bytes of entries written; 0 where it is refused */
    NACOZTEYA_CALL_COUNTS = 2
};

/*
 * One call: the message that the bytes begin with is sent to the account that it names.
 *
 *   image, image_length       the register: NACOZTEYA_REGISTER_WORDS words, zeroed before the first call
 *   message, message_length   the bytes of the message, perhaps with others behind it; they are only read
 *   entries, entries_length   the entry buffer
 *   counts, counts_length     where the two numbers above are stored, as many as there are places
 *
 * Returns 0 where the message was taken, else the number of the refusal (docs/REGISTER.md, 10.1).
 *
 * What is promised, for every content and every length:
 *   - taken: the entries stand at the beginning of the buffer, and the words of the account that is
 *     named are those of the account that follows; refused: image and buffer are as they were;
 *   - no word of another account is read or written, and no byte of the buffer behind the entries;
 *   - an image that was zeroed once and then changed by these calls alone is a register: every reply
 *     and every entry is the one that docs/REGISTER.md asks for. Any other content is answered too:
 *     what no account has is not in order, and gets 5, as does an image that ends before the last
 *     word of the account;
 *   - the function returns, and reads and writes nothing but the four buffers.
 */
uint64_t nacozteya_call(uint32_t *image, size_t image_length,
                        const uint8_t *message, size_t message_length,
                        uint8_t *entries, size_t entries_length,
                        uint64_t *counts, size_t counts_length);

/* The places of `state`, and the lives. */
enum {
    NACOZTEYA_LIFE = 0,
    NACOZTEYA_BALANCE = 1,
    NACOZTEYA_APPLIED = 2, /* how many undecided events are applied in that outcome */
    NACOZTEYA_STATE = 3
};
enum { NACOZTEYA_NEW = 0, NACOZTEYA_OPENED = 1, NACOZTEYA_CLOSED = 2 };

/*
 * The outcome question: the state of an account in the outcome of a number (docs/REGISTER.md, 4.1 to
 * 4.3 and 11.2). Outcome 0 is the applied state with every committed event and no undecided one.
 *
 *   image, image_length   the register; it is only read
 *   account, number       the account, 0 to 15, and the outcome's number
 *   state, state_length   where the three numbers above are stored, as many as there are places
 *
 * Returns 0, or the number of the refusal, 3, 5 or 12; a refusal stores nothing.
 */
uint64_t nacozteya_outlook(const uint32_t *image, size_t image_length,
                           uint16_t account, uint32_t number,
                           uint32_t *state, size_t state_length);

/* ---- the text of an entry ---- */

/* The room that a line needs, whatever its entry is. */
#define NACOZTEYA_LONGEST_LINE 72

/* The places of a line's `counts`. */
enum {
    NACOZTEYA_LINE_ENTRY = 0,  /* bytes that the entry has; 0 where there is no line */
    NACOZTEYA_LINE_LENGTH = 1, /* bytes that its line has, the newline included; 0 where there is none */
    NACOZTEYA_LINE_COUNTS = 2
};

/*
 * The line of text of the entry that the bytes begin with (docs/REGISTER.md, 12.4 and 15.9); that of a rejection ends in
 * its reason, where its kind has one.
 *
 *   entry, entry_length     the bytes of the entry, perhaps with others behind it; they are only read
 *   line, line_length       where the line is stored, with no 0 behind it
 *   counts, counts_length   where the two numbers above are stored, as many as there are places
 *
 * Returns the length of the line, or 0 where nothing was written: where the bytes begin with no entry,
 * or where fewer than NACOZTEYA_LONGEST_LINE bytes are lent.
 */
uint64_t nacozteya_line(const uint8_t *entry, size_t entry_length,
                        uint8_t *line, size_t line_length,
                        uint64_t *counts, size_t counts_length);

#ifdef __cplusplus
}
#endif

#endif
