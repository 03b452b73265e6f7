#!/usr/bin/env python3
"""Brings the names of the repository's own definitions and lemmas to snake case: `isNew` becomes `is_new`, `length-bytesOf` becomes `length-bytes_of`.

usage: python3 tools/respell.py      at the top of the repository, once, after the kit's port.py

Files of specs/ and proofs/, and the clauses and comments of src/, are rewritten in place; strings, names of types, modules, files and functions stay.
It stops where two names would fall together, or where a new one stands in the same file already, but for those named below.
"""

import collections
import glob
import re
import sys

# a lemma that would have its definition's name, and words of statements that had a dash
WHOLE = {
    "asked_by": "asked_by_lem",
    "step_through": "step_through_lem",
    "row_words": "row_words_lem",
    "last-after": "last_after",
    "last-seen": "last_seen",
    "with-amount": "with_amount",
    "without-amount": "without_amount",
    "no-entry": "nothing_written",
    "decided-sent": "decided_sent",
    "read-written": "read_written",
    "never-five": "never_five",
    "never-asked-five": "never_asked_five",
    "same-messages": "same_messages",
    "only-applied": "only_applied",
    "only-decided": "only_decided",
    "is-committed": "is_committed_lem",
    "headed-by": "headed_by",
    "drop-entry": "drop_entry",
    "before-filed": "before_filed",
}
# a constructor and a field of one name, in files of their own records
TOGETHER = {"none_seen", "in_order"}

NAME = re.compile(r"(?<![A-Za-z0-9_'-])[A-Za-z][A-Za-z0-9_'-]*")
STRING = re.compile(r'b?"(?:[^"\\]|\\.)*"')


def snake(part):
    if not re.match(r"[a-z]", part):
        return part
    return re.sub(r"(?<=[a-z0-9])[A-Z]", lambda m: "_" + m.group(0).lower(), part)


def respelled(name):
    if name in WHOLE:
        return WHOLE[name]
    return "-".join(snake(part) for part in name.split("-"))


def outside_strings(text, turn):
    parts, at = [], 0
    for m in STRING.finditer(text):
        parts += [turn(text[at : m.start()]), m.group(0)]
        at = m.end()
    return "".join(parts) + turn(text[at:])


def turned(text):
    return NAME.sub(lambda m: respelled(m.group(0)), text)


def main():
    files = sorted(glob.glob("crates/*/specs/**/*.antt", recursive=True) + glob.glob("crates/*/proofs/**/*.antt", recursive=True) + glob.glob("crates/*/src/**/*.rt", recursive=True))
    texts = {}
    for path in files:
        with open(path, encoding="utf-8") as f:
            texts[path] = f.read()
    came = collections.defaultdict(set)
    wrong = []
    for path, text in texts.items():
        names = set(NAME.findall(text))
        for name in names:
            new = respelled(name)
            if new == name:
                continue
            came[new].add(name)
            if path.endswith(".antt") and not path.endswith("/Proof.antt") and new in names - set(WHOLE) - TOGETHER:
                wrong.append(f"{path}: {name} is to be {new}, which stands there")
    wrong += [f"{', '.join(sorted(old))} are all to be {new}" for new, old in came.items() if len(old - set(WHOLE)) > 1 or len(old) > 1 and new not in TOGETHER]
    if wrong:
        print("\n".join(wrong))
        return 1
    for path, text in texts.items():
        new = outside_strings(text, turned) if path.endswith(".rt") else turned(text)
        if new != text:
            with open(path, "w", encoding="utf-8") as f:
                f.write(new)
    print(f"{len(came)} names in {len(files)} files")
    return 0


if __name__ == "__main__":
    sys.exit(main())
