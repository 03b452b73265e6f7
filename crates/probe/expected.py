#!/usr/bin/env python3
"""Writes the probe's test beside this file: `stdin`, a run of frames, and `stdout`, the lines
that they should give. The lines are written by hand, as docs/PROBE.md and docs/REGISTER.md have them;
nothing here computes an answer. Only the bytes of the frames are put together by the functions below."""

from pathlib import Path

OPEN, WITHDRAW, DEPOSIT, CLOSE, COMMIT, ABORT = 1, 2, 3, 4, 5, 6
LIFE, BALANCE, PROGRESSING, HOLDING, TRANSACTION, SECOND, EVENT, AMOUNT, DECISION = range(9)
HIGHEST = 0xFFFFFFFF

frames = bytearray()
lines = []


def number(value, width):
    return value.to_bytes(width, "big")


def case(code, payload, *words):
    """One frame, and its line in words."""
    frames.extend(number(code, 1) + number(len(payload), 2) + payload)
    lines.append(" ".join(words))


def hexed(text):
    """Hex that is written with blanks between the fields."""
    return text.replace(" ", "")


def message(kind, transaction, account, second, amount=None):
    head = number(kind, 1) + number(transaction, 4) + number(account, 2) + number(second, 4)
    return head if amount is None else head + number(amount, 4)


def call(sent, *words, room=323):
    case(1, number(room, 2) + sent, *words)


def outcome(account, outcome_number, line):
    case(2, number(account, 2) + number(outcome_number, 4), line)


def read(sent, line):
    case(3, sent, line)


def write(kind, transaction, account, second, amount, room, *words):
    case(4, message(kind, transaction, account, second, amount) + number(room, 2), *words)


def disturb(account, field, place, value, line="set"):
    case(5, number(account, 2) + number(field, 1) + number(place, 1) + number(value, 4), line)


def show(account, line):
    case(6, number(account, 2), line)


def entry(text, line):
    case(7, bytes.fromhex(text), line)


def text(entry_bytes, line):
    case(67, bytes.fromhex(entry_bytes), line)


def order(account, line):
    case(64, number(account, 2), line)


def run(sent, *words, room=1024):
    case(65, number(room, 2) + sent, *words)


def step(account, kind, transaction, second, amount, line):
    sent = number(account, 2) + number(kind, 1)
    case(68, sent + number(transaction, 4) + number(second, 4) + number(amount, 4), line)


# The example of clause 12.6, on account 0; every second is 100.
show(0, "account new 0 0 0")
call(message(OPEN, 1, 0, 100, 100), "taken 15 18", hexed("11 00000001 0000 00000064 01 00000064 0001"), "kept")
show(0, "account new 0 1 0 0=1:100:1:100:u")
call(
    message(COMMIT, 1, 0, 100),
    "taken 11 31",
    hexed("14 00000001 0000 00000064 15 00000001 0000 00000064 01 00000064 00000064"),
    "kept",
)
call(message(WITHDRAW, 2, 0, 100, 60), "taken 15 18", hexed("11 00000002 0000 00000064 02 0000003c 0001"), "kept")
call(message(WITHDRAW, 3, 0, 100, 60), "taken 15 18", hexed("13 00000003 0000 00000064 02 0000003c 0002"), "kept")
show(0, "account opened 100 1 1 0=2:100:2:60:u 8=3:100:2:60:u")
order(0, "order yes")
call(
    message(ABORT, 2, 0, 100),
    "taken 11 34",
    hexed("16 00000002 0000 00000064 02 0000003c 11 00000003 0000 00000064 02 0000003c 0001"),
    "kept",
)
call(
    message(COMMIT, 3, 0, 100),
    "taken 11 31",
    hexed("14 00000003 0000 00000064 15 00000003 0000 00000064 02 0000003c 00000028"),
    "kept",
)
show(0, "account opened 40 0 0")

# Refusals 1 to 4 of the call, in their order. Whatever follows a whole message plays no part.
call(b"", "refused 1 kept")
call(b"", "refused 1 kept", room=0)
call(b"\0", "refused 2 kept")
call(b"\7", "refused 2 kept")
call(message(COMMIT, 1, 16, 0)[:10], "refused 1 kept")
call(message(OPEN, 1, 0, 0, 0)[:14], "refused 1 kept")
call(message(OPEN, 1, 16, 0, 0), "refused 3 kept", room=0)
call(message(OPEN, 1, 15, 0, 0), "refused 4 kept", room=0)
call(message(OPEN, 1, 15, 0, 0), "refused 4 kept", room=322)
call(message(DEPOSIT, 1, 15, 0, 5) + b"\1\2", "taken 15 19", hexed("17 00000001 000f 00000000 03 00000005 0001 01"), "kept")
call(message(CLOSE, 1, 15, 0) + b"\1\2", "taken 11 19", hexed("17 00000001 000f 00000000 04 00000000 0001 01"), "kept")
call(message(OPEN, 1, 15, 0, 1_000_001), "taken 15 19", hexed("17 00000001 000f 00000000 01 000f4241 0001 04"), "kept", room=1024)
call(message(OPEN, 1, 15, 0, 0), "unknown", room=1025)
case(1, b"\1", "unknown")
case(1, b"", "unknown")
show(15, "account new 0 0 0")

# The reasons of rejections, on account 5: new (1, also for an amount of 0; 4 for an Open), then opened with 100 (1 to 4).
call(message(WITHDRAW, 1, 5, 7, 0), "taken 15 19", hexed("17 00000001 0005 00000007 02 00000000 0001 01"), "kept")
call(message(OPEN, 1, 5, 7, HIGHEST), "taken 15 19", hexed("17 00000001 0005 00000007 01 ffffffff 0001 04"), "kept")
disturb(5, LIFE, 0, 1)
disturb(5, BALANCE, 0, 100)
call(message(OPEN, 1, 5, 7, HIGHEST), "taken 15 19", hexed("17 00000001 0005 00000007 01 ffffffff 0001 01"), "kept")
call(message(WITHDRAW, 1, 5, 7, 0), "taken 15 19", hexed("17 00000001 0005 00000007 02 00000000 0001 02"), "kept")
call(message(DEPOSIT, 1, 5, 7, 0), "taken 15 19", hexed("17 00000001 0005 00000007 03 00000000 0001 02"), "kept")
call(message(WITHDRAW, 1, 5, 7, 101), "taken 15 19", hexed("17 00000001 0005 00000007 02 00000065 0001 03"), "kept")
call(message(WITHDRAW, 1, 5, 7, HIGHEST), "taken 15 19", hexed("17 00000001 0005 00000007 02 ffffffff 0001 03"), "kept")
call(message(DEPOSIT, 1, 5, 7, 999_901), "taken 15 19", hexed("17 00000001 0005 00000007 03 000f41dd 0001 04"), "kept")

# A Close undecided: outcome 0 is opened (3), the other closed. Withdraw 1 is held, 101 behind it; committed, the Close makes both 1.
call(message(CLOSE, 1, 5, 7), "taken 11 18", hexed("11 00000001 0005 00000007 04 00000000 0001"), "kept")
call(message(WITHDRAW, 2, 5, 7, 101), "taken 15 19", hexed("17 00000002 0005 00000007 02 00000065 0002 03"), "kept")
call(message(WITHDRAW, 2, 5, 7, 1), "taken 15 18", hexed("13 00000002 0005 00000007 02 00000001 0002"), "kept")
call(message(WITHDRAW, 3, 5, 7, 101), "taken 15 18", hexed("13 00000003 0005 00000007 02 00000065 0000"), "kept")
call(
    message(COMMIT, 1, 5, 8),
    "taken 11 69",
    hexed(
        "14 00000001 0005 00000008"
        " 15 00000001 0005 00000007 04 00000000 00000000"
        " 17 00000002 0005 00000007 02 00000001 0001 01"
        " 17 00000003 0005 00000007 02 00000065 0001 01"
    ),
    "kept",
)
show(5, "account closed 0 0 0")

# Account 1, opened with 100 by frame 5: cases 14.5 and 14.6, with second 7 in the requests and 8 in the commits.
disturb(1, LIFE, 0, 1)
order(1, "order yes")
disturb(1, BALANCE, 0, 100)
call(message(WITHDRAW, 1, 1, 7, 60), "taken 15 18", hexed("11 00000001 0001 00000007 02 0000003c 0001"), "kept")
call(message(WITHDRAW, 2, 1, 7, 40), "taken 15 18", hexed("11 00000002 0001 00000007 02 00000028 0002"), "kept")
outcome(1, 0, "outcome opened 100 0")
outcome(1, 1, "outcome opened 40 1")
outcome(1, 2, "outcome opened 60 1")
outcome(1, 3, "outcome opened 0 2")
outcome(1, 4, "refused 12")
outcome(1, HIGHEST, "refused 12")
call(message(COMMIT, 2, 1, 8), "taken 11 11", hexed("14 00000002 0001 00000008"), "kept")
outcome(1, 0, "outcome opened 60 0")
outcome(1, 1, "outcome opened 0 1")
outcome(1, 2, "refused 12")

# Refusals 6 and 8 to 11.
call(message(DEPOSIT, 2, 1, 7, 1), "refused 6 kept")
call(message(COMMIT, 9, 1, 8), "refused 8 kept")
call(message(ABORT, 9, 1, 8), "refused 8 kept")
call(message(COMMIT, 2, 1, 8), "refused 10 kept")
call(message(ABORT, 2, 1, 8), "refused 11 kept")
call(message(WITHDRAW, 3, 1, 7, 1), "taken 15 18", hexed("13 00000003 0001 00000007 02 00000001 0002"), "kept")
call(message(COMMIT, 3, 1, 8), "refused 9 kept")

# Held behind a held one, until eight are held: 7, and 6 before it.
call(message(CLOSE, 4, 1, 7), "taken 11 18", hexed("13 00000004 0001 00000007 04 00000000 0000"), "kept")
call(message(WITHDRAW, 5, 1, 7, 100), "taken 15 18", hexed("13 00000005 0001 00000007 02 00000064 0000"), "kept")
call(message(WITHDRAW, 6, 1, 7, 100), "taken 15 18", hexed("13 00000006 0001 00000007 02 00000064 0000"), "kept")
call(message(WITHDRAW, 7, 1, 7, 100), "taken 15 18", hexed("13 00000007 0001 00000007 02 00000064 0000"), "kept")
call(message(WITHDRAW, 8, 1, 7, 100), "taken 15 18", hexed("13 00000008 0001 00000007 02 00000064 0000"), "kept")
call(message(WITHDRAW, 9, 1, 7, 100), "taken 15 18", hexed("13 00000009 0001 00000007 02 00000064 0000"), "kept")
call(message(WITHDRAW, 10, 1, 7, 100), "taken 15 18", hexed("13 0000000a 0001 00000007 02 00000064 0000"), "kept")
call(message(WITHDRAW, 11, 1, 7, 100), "refused 7 kept")
call(message(WITHDRAW, 10, 1, 7, 100), "refused 6 kept")
show(
    1,
    "account opened 100 2 8 0=1:7:2:60:u 1=2:7:2:40:c 8=3:7:2:1:u 9=4:7:4:0:u 10=5:7:2:100:u"
    " 11=6:7:2:100:u 12=7:7:2:100:u 13=8:7:2:100:u 14=9:7:2:100:u 15=10:7:2:100:u",
)

# The abort of a held request; then that of the oldest event, after which the committed one is applied and every held one decided.
call(message(ABORT, 4, 1, 9), "taken 11 16", hexed("16 00000004 0001 00000007 04 00000000"), "kept")
call(
    message(ABORT, 1, 1, 9),
    "taken 11 168",
    hexed(
        "16 00000001 0001 00000007 02 0000003c"
        " 15 00000002 0001 00000007 02 00000028 0000003c"
        " 11 00000003 0001 00000007 02 00000001 0001"
        " 17 00000005 0001 00000007 02 00000064 0002 03"
        " 17 00000006 0001 00000007 02 00000064 0002 03"
        " 17 00000007 0001 00000007 02 00000064 0002 03"
        " 17 00000008 0001 00000007 02 00000064 0002 03"
        " 17 00000009 0001 00000007 02 00000064 0002 03"
        " 17 0000000a 0001 00000007 02 00000064 0002 03"
    ),
    "kept",
)
show(1, "account opened 60 1 0 0=3:7:2:1:u")

# Each field of account 2 set, whatever order it breaks; what is unknown changes nothing.
outcome(2, 0, "outcome new 0 0")
outcome(2, 1, "refused 12")
disturb(2, LIFE, 0, 2)
show(2, "account closed 0 0 0")
order(2, "order yes")
disturb(2, BALANCE, 200, 1_000_001)
order(2, "order no")
call(message(OPEN, 1, 2, 7, 100), "refused 5 kept")
call(message(OPEN, 1, 2, 7, 100), "refused 4 kept", room=322)
call(message(COMMIT, 1, 2, 7), "refused 5 kept")
outcome(2, 1, "refused 5")
disturb(2, PROGRESSING, 16, 264)
disturb(2, HOLDING, 255, HIGHEST)
show(2, "account closed 1000001 264 4294967295")
call(message(ABORT, 1, 2, 7), "refused 5 kept")
disturb(2, TRANSACTION, 0, 9)
disturb(2, SECOND, 0, 8)
disturb(2, AMOUNT, 0, 77)
show(2, "account closed 1000001 264 4294967295 0=9:8:1:77:u")
disturb(2, EVENT, 0, 2)
disturb(2, DECISION, 0, 1)
show(2, "account closed 1000001 264 4294967295 0=9:8:2:77:c")
disturb(2, EVENT, 0, 4)
show(2, "account closed 1000001 264 4294967295 0=9:8:4:0:c")
disturb(2, AMOUNT, 0, 5, "unknown")
disturb(2, EVENT, 0, 3)
disturb(2, DECISION, 0, 0)
disturb(2, TRANSACTION, 15, HIGHEST)
disturb(2, AMOUNT, 8, 6)
disturb(2, DECISION, 7, 1)
show(2, "account closed 1000001 264 4294967295 0=9:8:3:0:u 7=0:0:1:0:c 8=0:0:1:6:u 15=4294967295:0:1:0:u")
disturb(2, LIFE, 0, 3, "unknown")
disturb(2, LIFE, 0, 256, "unknown")
disturb(2, EVENT, 1, 0, "unknown")
disturb(2, EVENT, 1, 5, "unknown")
disturb(2, EVENT, 1, 257, "unknown")
disturb(2, DECISION, 1, 2, "unknown")
disturb(2, TRANSACTION, 16, 1, "unknown")
disturb(2, SECOND, 255, 1, "unknown")
disturb(2, 9, 0, 0, "unknown")
disturb(16, LIFE, 0, 0, "unknown")
case(5, bytes(7), "unknown")
case(5, bytes(9), "unknown")
show(2, "account closed 1000001 264 4294967295 0=9:8:3:0:u 7=0:0:1:0:c 8=0:0:1:6:u 15=4294967295:0:1:0:u")
disturb(2, TRANSACTION, 0, 0)
disturb(2, SECOND, 0, 0)
disturb(2, EVENT, 0, 1)
disturb(2, TRANSACTION, 15, 0)
disturb(2, AMOUNT, 8, 0)
disturb(2, DECISION, 7, 0)
disturb(2, PROGRESSING, 0, 0)
disturb(2, HOLDING, 0, 0)
disturb(2, BALANCE, 0, 0)
show(2, "account closed 0 0 0")
order(2, "order yes")

# What does not fit frames 2, 6 and 64.
outcome(16, 0, "refused 3")
outcome(65535, 0, "refused 3")
case(2, bytes(5), "unknown")
case(2, bytes(7), "unknown")
show(16, "unknown")
case(6, bytes(1), "unknown")
case(6, bytes(3), "unknown")
order(16, "unknown")
case(64, b"", "unknown")

# The message reader.
read(message(OPEN, 1, 0, 2, 3), "message 1 1 0 2 3 15")
read(message(WITHDRAW, 4, 5, 6, 7) + b"\0\0", "message 2 4 5 6 7 15")
read(message(DEPOSIT, HIGHEST, 15, HIGHEST, HIGHEST), "message 3 4294967295 15 4294967295 4294967295 15")
read(message(CLOSE, 8, 9, 10, 11), "message 4 8 9 10 0 11")
read(message(COMMIT, 12, 13, 14), "message 5 12 13 14 0 11")
read(message(ABORT, 256, 3, 65536), "message 6 256 3 65536 0 11")
read(b"", "refused 1")
read(b"\0", "refused 2")
read(message(7, 1, 16, 2, 3), "refused 2")
read(message(OPEN, 1, 16, 2, 3)[:14], "refused 1")
read(message(CLOSE, 1, 0, 2)[:10], "refused 1")
read(message(OPEN, 1, 16, 2, 3), "refused 3")
read(message(ABORT, 1, 256, 2), "refused 3")

# The message writer.
write(OPEN, 1, 2, 3, 4, 15, "written 15", hexed("01 00000001 0002 00000003 00000004"), "kept")
write(WITHDRAW, 0x01020304, 15, 0x05060708, 0x090A0B0C, 1024, "written 15", hexed("02 01020304 000f 05060708 090a0b0c"), "kept")
write(DEPOSIT, HIGHEST, 0, HIGHEST, HIGHEST, 16, "written 15", hexed("03 ffffffff 0000 ffffffff ffffffff"), "kept")
write(CLOSE, 1, 2, 3, 4, 11, "written 11", hexed("04 00000001 0002 00000003"), "kept")
write(COMMIT, 1, 2, 3, 4, 12, "written 11", hexed("05 00000001 0002 00000003"), "kept")
write(ABORT, 1, 2, 3, 4, 1024, "written 11", hexed("06 00000001 0002 00000003"), "kept")
write(OPEN, 1, 2, 3, 4, 14, "refused 4 kept")
write(ABORT, 1, 2, 3, 4, 10, "refused 4 kept")
write(CLOSE, 1, 2, 3, 4, 0, "refused 4 kept")
write(CLOSE, 1, 16, 3, 4, 11, "refused 3 kept")
write(CLOSE, 1, 65535, 3, 4, 0, "refused 3 kept")
write(0, 1, 2, 3, 4, 15, "unknown")
write(7, 1, 2, 3, 4, 15, "unknown")
write(OPEN, 1, 2, 3, 4, 1025, "unknown")
case(4, message(OPEN, 1, 2, 3, 4) + b"\0", "unknown")
case(4, message(OPEN, 1, 2, 3, 4) + b"\0\0\0", "unknown")

# The entry reader.
entry("11 00000001 0002 00000003 01 00000004 0005", "entry 17 1 2 3 1 4 5 18")
entry("12 ffffffff 000f ffffffff 02 ffffffff ffff 00", "entry 18 4294967295 15 4294967295 2 4294967295 65535 18")
entry("13 00000001 0002 00000003 04 00000000 0000", "entry 19 1 2 3 4 0 0 18")
entry("14 00000001 0002 00000003", "entry 20 1 2 3 11")
entry("15 00000001 0002 00000003 03 00000004 ffffffff", "entry 21 1 2 3 3 4 4294967295 20")
entry("16 00000001 0002 00000003 04 00000000", "entry 22 1 2 3 4 0 16")
entry("17 00000001 0002 00000003 01 00000004 0005 06", "entry 23 1 2 3 1 4 5 6 19")
entry("17 ffffffff 000f ffffffff 02 ffffffff ffff ff 00", "entry 23 4294967295 15 4294967295 2 4294967295 65535 255 19")
entry("17 00000001 0002 00000003 04 00000000 0001 00", "entry 23 1 2 3 4 0 1 0 19")
entry("", "none")
entry("10 00000001 0002 00000003 01 00000004 0005", "none")
entry("17 00000001 0002 00000003 01 00000004 0005", "none")
entry("17 00000001 0002 00000003 04 00000001 0005 01", "none")
entry("18 00000001 0002 00000003 01 00000004 0005 06", "none")
entry("11 00000001 0010 00000003 01 00000004 0005", "none")
entry("11 00000001 0002 00000003 00 00000004 0005", "none")
entry("11 00000001 0002 00000003 05 00000004 0005", "none")
entry("11 00000001 0002 00000003 04 00000001 0005", "none")
entry("11 00000001 0002 00000003 01 00000004 00", "none")
entry("14 00000001 0002 000000", "none")
entry("15 00000001 0002 00000003 03 00000004 ffffff", "none")
entry("16 00000001 0002 00000003 04 000000", "none")

# An entry's line of text: names and order of fields as in clause 12.4.
text("11 00000001 0000 00000064 01 00000064 0001", "accepted 1 0 100 open 100 1")
text("12 00000001 000f 00000000 03 00000005 0080", "rejected 1 15 0 deposit 5 128")
text("12 00000001 000f 00000000 03 00000005 0080 04", "rejected 1 15 0 deposit 5 128")
text("17 00000001 000f 00000000 03 00000005 0080 04 ff", "rejected 1 15 0 deposit 5 128 4")
text("17 ffffffff 000f ffffffff 02 ffffffff ffff 00", "rejected 4294967295 15 4294967295 withdraw 4294967295 65535 0")
text("13 00000003 0000 00000064 02 0000003c 0002 ff", "held 3 0 100 withdraw 60 2")
text("14 00000003 0000 00000064", "noted 3 0 100")
text("15 00000003 0000 00000064 02 0000003c 00000028", "applied 3 0 100 withdraw 60 40")
text("15 ffffffff 000f ffffffff 02 ffffffff ffffffff", "applied 4294967295 15 4294967295 withdraw 4294967295 4294967295")
text("16 00000002 0000 00000064 04 00000000", "dropped 2 0 100 close 0")
text("", "none")
text("17 00000001 0000 00000064 01 00000064 0001", "none")
text("11 00000001 0010 00000064 01 00000064 0001", "none")

# The single steps, on account 3.
step(3, OPEN, 1, 2, 5, "taken 1 0=17:1:2:1:5:1")
step(3, WITHDRAW, 2, 3, 4, "taken 1 0=19:2:3:2:4:2")
step(3, WITHDRAW, 4, 3, 9, "taken 1 0=19:4:3:2:9:0")
step(3, OPEN, 2, 3, 5, "refused 6 0")
step(3, COMMIT, 2, 3, 5, "refused 9 0")
step(3, ABORT, 3, 3, 5, "refused 8 0")
show(3, "account new 0 1 2 0=1:2:1:5:u 8=2:3:2:4:u 9=4:3:2:9:u")
step(3, COMMIT, 1, 7, 5, "taken 4 0=20:1:7 1=21:1:2:1:5:5 2=17:2:3:2:4:1 3=23:4:3:2:9:2:3")
step(3, ABORT, 2, 8, 5, "taken 1 0=22:2:3:2:4")
step(3, CLOSE, 0, 0, 5, "taken 1 0=17:0:0:4:0:1")
step(3, COMMIT, 0, 0, 5, "taken 2 1=21:0:0:4:0:0")
show(3, "account closed 0 0 0")
disturb(3, BALANCE, 0, 1)
step(3, ABORT, 0, 0, 5, "refused 5 0")
show(3, "account closed 1 0 0")
step(16, OPEN, 1, 2, 5, "unknown")
step(4, 0, 1, 2, 5, "unknown")
step(4, 7, 1, 2, 5, "unknown")
case(68, bytes(14), "unknown")
case(68, bytes(16), "unknown")
show(4, "account new 0 0 0")

# A run of messages through a fresh register of its own. First the example of clause 12.6.
run(
    message(OPEN, 1, 0, 100, 100)
    + message(COMMIT, 1, 0, 100)
    + message(WITHDRAW, 2, 0, 100, 60)
    + message(WITHDRAW, 3, 0, 100, 60)
    + message(ABORT, 2, 0, 100)
    + message(COMMIT, 3, 0, 100),
    "ran 6 0 78 150",
    hexed(
        "11 00000001 0000 00000064 01 00000064 0001"
        " 14 00000001 0000 00000064"
        " 15 00000001 0000 00000064 01 00000064 00000064"
        " 11 00000002 0000 00000064 02 0000003c 0001"
        " 13 00000003 0000 00000064 02 0000003c 0002"
        " 16 00000002 0000 00000064 02 0000003c"
        " 11 00000003 0000 00000064 02 0000003c 0001"
        " 14 00000003 0000 00000064"
        " 15 00000003 0000 00000064 02 0000003c 00000028"
    ),
    "kept",
)
run(b"", "ran 0 0 0 0 - kept")
run(b"", "ran 0 0 0 0 - kept", room=0)

# The run stops at a torn message and at an unknown kind, and skips other refused ones; 3 comes before 4.
first = message(OPEN, 1, 15, 5, 7)
first_entry = hexed("11 00000001 000f 00000005 01 00000007 0001")
run(first + message(WITHDRAW, 2, 15, 5, 3)[:14], "ran 2 1 15 18", first_entry, "kept")
run(first + b"\7" + message(COMMIT, 1, 15, 5), "ran 2 1 15 18", first_entry, "kept")
run(b"\0", "ran 1 1 0 0 - kept")
run(message(CLOSE, 1, 16, 5) + first + first, "ran 3 2 41 18", first_entry, "kept")
run(message(CLOSE, 1, 16, 5) + message(ABORT, 1, 0, 5)[:10], "ran 2 2 11 0 - kept", room=0)

# Room of 322 bytes and of 323; room that runs out after the first message, and after the second.
committed = hexed("14 00000001 000f 00000006 15 00000001 000f 00000005 01 00000007 00000007")
run(first, "ran 1 1 15 0 - kept", room=322)
run(first, "ran 1 0 15 18", first_entry, "kept", room=323)
run(first + message(COMMIT, 1, 15, 6), "ran 2 1 26 18", first_entry, "kept", room=340)
run(first + message(COMMIT, 1, 15, 6), "ran 2 0 26 49", first_entry + committed, "kept", room=341)
run(first + message(COMMIT, 1, 15, 6) + message(CLOSE, 2, 15, 7), "ran 3 1 37 49", first_entry + committed, "kept", room=341)
run(first, "unknown", room=1025)
case(65, b"\1", "unknown")
case(65, b"", "unknown")

# The register of the run knows nothing of the accounts here, one of them not in order, and leaves them as they were.
run(message(OPEN, 1, 3, 0, 7), "ran 1 0 15 18", hexed("11 00000001 0003 00000000 01 00000007 0001"), "kept")
show(3, "account closed 1 0 0")
show(0, "account opened 40 0 0")
show(15, "account new 0 0 0")

# Codes that are not listed, and a torn frame, with whatever code, at the end.
for code in (0, 8, 63, 66, 69, 255):
    case(code, b"", "unknown")
frames.extend(b"\x09\x00\x02\x00")
lines.append("torn")

here = Path(__file__).parent
(here / "stdin").write_bytes(frames)
(here / "stdout").write_text("".join(f"{line}\n" for line in ["probe 1", *lines, f"end {len(lines)}"]))
