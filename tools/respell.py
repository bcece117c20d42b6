#!/usr/bin/env python3
"""Respells the names that the crates' specs/ and proofs/ declare: isSound -> is_sound, run-numbered -> run_numbered.

usage: tools/respell.py [--check] [--table FILE]

Run once, at the top of the repository, right after the kit's port.py, to give names one style: definitions, lemmas, fields and constructors that
begin with a small letter are in snake case. Types, modules, names of Rattle code, strings and generated names stay. --check writes nothing and lists
what falls together in a file; --table writes each old name with its new one.
"""

import glob
import os
import re
import sys

WORD = re.compile(r'[^\s(){}\[\].;,@"«»:]+')
HEAD = re.compile(r'(?:(?:abbrev|unfoldable|pub|private)\s+)*([^\s(){}.;,@"«»:]+)\s*:(?:\s+(\S+)|\s*$)')
BLOCK = re.compile(r"(?:(?:abbrev|unfoldable|pub|private)\s+)*(record|data|module)\s")
INNER = re.compile(r'\s+(?:(?:abbrev|unfoldable|pub|private)\s+)*([^\s(){}.;,@"«»:]+)\s*:(?:\s|$)')
FIELD = re.compile(r'\s+(?:pub )?([^\s(){}.;,@"«»:]+) :(?:\s|$)')
# Where the new name would fall together with another of the same file.
APART = {
    "all-numbered": "all_numbered_lem",
    "asked-bodies": "asked_bodies_lem",
    "asked-first": "asked_first_lem",
    "atEnd": "at_end_code",
    "atMark": "at_mark_code",
    "atSize": "is_at_size",
    "bare-text": "bare_text_lem",
    "behind-text": "behind_text_lem",
    "body-len": "body_len_lem",
    "broken-accounts": "broken_accounts_lem",
    "challenged-first": "challenged_first_lem",
    "count-on": "count_on_lem",
    "data-connect": "data_connect_lem",
    "empty-part": "empty_part_lem",
    "entry-len": "entry_len_lem",
    "entry-part": "entry_part_lem",
    "entry-start": "entry_start_lem",
    "fedBy": "fed_with",
    "from-tape": "from_tape_lem",
    "have-room": "have_room_lem",
    "in-drive": "in_drive_lem",
    "in-turn": "in_turn_lem",
    "is-full": "is_full_lem",
    "is-move": "is_move_lem",
    "is-tcp": "is_tcp_lem",
    "is-type": "is_type_lem",
    "lent-only": "lent_only_lem",
    "line-feed": "line_feed_lem",
    "lines-from": "lines_from_lem",
    "login-bodies": "login_bodies_lem",
    "long-md5": "long_md5_lem",
    "longest-digest": "longest_digest_lem",
    "may-lend": "may_lend_lem",
    "mover-aborted": "mover_aborted_lem",
    "mover-alone": "mover_alone_lem",
    "mover-awaits": "mover_awaits_lem",
    "mover-closed": "mover_closed_lem",
    "mover-connect": "mover_connect_lem",
    "mover-joined": "mover_joined_lem",
    "mover-joins": "mover_joins_lem",
    "newest-counts": "newest_counts_lem",
    "not-used-up": "not_used_up_lem",
    "notice-words": "notice_words_lem",
    "on-number": "on_number_lem",
    "one-md5": "one_md5_lem",
    "one-text": "one_text_lem",
    "pair-words": "pair_words_lem",
    "pastTop": "is_past_top",
    "readAs": "read_fields",
    "right-digest": "right_digest_lem",
    "run-numbered": "run_numbered_lem",
    "same-service": "same_service_lem",
    "seen-login": "seen_login_lem",
    "sense-length": "sense_length_lem",
    "short-part": "short_part_lem",
    "shortest-digest": "shortest_digest_lem",
    "source-alone": "source_alone_lem",
    "stream-over": "stream_over_lem",
    "texts-within": "texts_within_lem",
    "to-tape": "to_tape_lem",
    "two-of-one-id": "two_of_one_id_lem",
}


def snake(name):
    return re.sub(r"([a-z0-9])([A-Z])", lambda m: m[1] + "_" + m[2].lower(), name).replace("-", "_")


def declared(path, proof):
    block = False
    with open(path, encoding="utf-8") as lines:
        for line in lines:
            if not line.strip():
                continue
            if not line[0].isspace():
                block = BLOCK.match(line)
                if block:
                    continue
                m = HEAD.match(line)
                # What a proof file declares for the check has the check's names.
                if m and not (proof and re.match(r"(tie\.|goal\.|\{M|statement)", m[2] or "")):
                    yield m[1]
            elif block:
                m = (INNER if block[1] == "module" else FIELD).match(line)
                if m:
                    yield m[1]


def files(kind):
    return sorted(
        p
        for part in ("src", "specs", "proofs")
        for p in glob.glob(f"crates/*/{part}/**/*{kind}", recursive=True)
        if "/out/" not in p
    )


def table():
    names = {n for p in files(".antt") for n in declared(p, p.endswith("/Proof.antt"))}
    return {n: APART.get(n, snake(n)) for n in names if n[0].islower() and n != snake(n)}


def respelled(text, names):
    """The text of a file of specs/ or proofs/. In a comment only a name that is no plain word turns, or one in backticks."""

    def code(t):
        return WORD.sub(lambda m: names.get(m[0], m[0]), t)

    def remark(t):
        t = re.sub(r"`[^`]*`", lambda m: code(m[0][1:-1]).join("``"), t)
        return re.sub(r"\b[a-z][a-z0-9]*[A-Z]\w*", lambda m: names.get(m[0], m[0]), t)

    out = []
    for line in text.split("\n"):
        at = re.search(r'(?<![^\s(){};,])--(?=\s|$|-)', line)
        out.append(code(line) if at is None else code(line[: at.start()]) + remark(line[at.start() :]))
    return "\n".join(out)


def respelled_code(text, names):
    """The text of a source file: its ghost items and clauses whole, elsewhere the names in mixed case, which no Rattle name has."""
    text = re.sub(r"ghost use [^;]*;", lambda m: respelled(m[0], names), text)
    out = []
    for line in text.split("\n"):
        if re.match(r"\s*(requires|ensures)\b", line):
            line = respelled(line, names)
        out.append(re.sub(r"\b[a-z][a-z0-9]*[A-Z]\w*", lambda m: names.get(m[0], m[0]), line))
    return "\n".join(out)


def together(path, text, names):
    text = re.sub(r"--[^\n]*", "", text)
    text = re.sub(r"(?m)^(?:pub )?use [^\s{]*", "", text)
    words = set(WORD.findall(text))
    turned = {}
    for w in sorted(words & set(names)):
        new = names[w]
        if new in words or new in turned:
            print(f"{path}: {w} and {turned.get(new, new)} fall together as {new}")
        turned[new] = w


def main(argv):
    check = "--check" in argv
    names = table()
    if "--table" in argv:
        with open(argv[argv.index("--table") + 1], "w", encoding="utf-8") as f:
            f.write("".join(f"{a}\t{b}\n" for a, b in sorted(names.items())))
    for p in files(".antt") + files(".rt"):
        with open(p, encoding="utf-8") as f:
            old = f.read()
        if check:
            together(p, old, names)
            continue
        new = (respelled if p.endswith(".antt") else respelled_code)(old, names)
        if new != old:
            with open(p, "w", encoding="utf-8") as f:
                f.write(new)
    return 0


if __name__ == "__main__":
    os.chdir(os.path.dirname(os.path.dirname(os.path.abspath(__file__))))
    sys.exit(main(sys.argv[1:]))
