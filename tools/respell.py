#!/usr/bin/env python3
"""Brings the repository's own definitions and lemmas to the spelling of today's Rattle.

usage: python3 tools/respell.py        at the top, once, right after port.py

Types and facts are in upper camel case; functions, lemmas, fields and constructors of specs/ and proofs/ are in snake case. A lemma
that would have the name of a definition gets _lem. Names of Rattle source, exported C names, strings and data stay as they are.
It goes by text: what it makes of a name it makes of it everywhere, but for the tables below.
"""

import collections
import glob
import re
import sys

TOKEN = re.compile(r"[\w'·-]+")
NAME = r"[\w'·-]+"
HEAD = re.compile(r"^(?:(?:pub|unfoldable|abbrev|opaque)\s+)*(?:(data|record)\s+)?(" + NAME + r")\s+:(?:\s|$)")

# Facts that were spelled as functions.
FACTS = {
    "soundStep": "IsSoundStep", "soundHand": "IsSoundHand", "soundDeal": "IsSoundDeal", "valueKind": "IsValueKind",
    "callKind": "IsCallKind", "trickKind": "IsTrickKind",
}
# The same, where the name is a common word: in the file that defines it, and in those that import it from there.
COMMON = {
    ("crates/reader/specs/TagSteps.antt", "inside"): "IsInside",
    ("crates/tables/specs/NumberSteps.antt", "within"): "IsWithin",
    ("crates/reader/specs/DealSteps.antt", "grown"): "IsGrown",
    ("crates/reader/specs/DealSteps.antt", "fine"): "IsFine",
    ("crates/planning/proofs/StateLaws.antt", "reach"): "Reaches",
    ("crates/demands/proofs/RemarksBack.antt", "tagless"): "IsTagless",
    ("crates/writer/proofs/Shares.antt", "fitting"): "IsFitting",
    ("crates/reader/proofs/NextLaws.antt", "placed"): "IsPlaced",
}
# Fields that would hide, in one file, a definition of their new name, and definitions that would hide a field.
OTHERS = {
    "all-deals": "each_deal", "boxes-after": "boxes_left", "calls-in": "calls_inside", "card-words": "words_of_card",
    "contract-from": "contract_came_from", "contract-trump": "trump_of_contract", "entry-words": "words_of_entry",
    "feed-last": "last_feed", "is-deal": "makes_deal", "page-after": "page_left", "record-at": "record_told", "trick-cards": "cards_of_trick",
    "allWords": "words_in_all", "all-fit": "each_fits",
}
# Lemmas that had the new spelling already, where a definition now has their name: file, old, new.
LEMMAS = [
    ("crates/writer/proofs/NamesOnce.antt", "all_right", "all_right_lem"),
    ("crates/reader/proofs/Tags.antt", "close_at", "close_at_lem"),
    ("crates/demands/proofs/FinishRefusing.antt", "first_above", "first_above_lem"),
    ("crates/writer/proofs/SectionTexts.antt", "last_code", "last_code_lem"),
    ("crates/demands/proofs/SearchesMean.antt", "one_more", "one_more_lem"),
    ("crates/demands/proofs/Listing.antt", "read_number", "read_number_lem"),
    ("crates/reader/proofs/WordsFit.antt", "tag_one", "tag_one_lem"),
    ("crates/lin/proofs/SurveyLaws.antt", "told_in", "told_in_lem"),
    ("crates/lin/proofs/DealingLaws.antt", "told_in", "told_in_lem"),
    ("crates/demands/proofs/RemarksBack.antt", "read_back", "read_back_lem"),
    ("crates/demands/proofs/BoardWritable.antt", "call_token", "call_token_lem"),
]


def snake(name):
    name = name.replace("-", "_")
    return re.sub(r"([a-z0-9])([A-Z])", lambda m: m.group(1) + "_" + m.group(2).lower(), name)


def upper(name):
    return "".join(p[0].upper() + p[1:] for p in re.split(r"[-_]", name))


def read(path):
    with open(path, encoding="utf-8", newline="") as f:
        return f.read()


def code(text):
    return "\n".join(re.sub(r"--.*", "", line) for line in text.split("\n"))


def walks(path):
    return path.endswith("/Proof.antt")


def signature(lines, i):
    out = lines[i]
    for line in lines[i + 1:]:
        if not line.startswith(" "):
            break
        out += " " + line.strip()
    return out


def declared(files):
    """Each name that the files declare, with its kinds: type, fact, def (functions and lemmas), part (fields, constructors, local lemmas)."""
    kinds = collections.defaultdict(set)
    for path in files:
        if walks(path):
            continue
        lines = read(path).split("\n")
        for i, line in enumerate(lines):
            m = HEAD.match(line)
            if m:
                fact = re.search(r"Type( \d+| \{\d\})?\s*$", signature(lines, i))
                kinds[m.group(2)].add("type" if m.group(1) else "fact" if fact else "def")
                continue
            m = re.match(r"^\s+(?:pub\s+)?(" + NAME + r")\s+:(?:\s|$)", line)
            if m:
                kinds[m.group(1)].add("part")
    return kinds


def renaming(kinds):
    names = {}
    for name, k in kinds.items():
        if not name[0].islower() and "-" not in name:
            continue
        if name in FACTS:
            names[name] = FACTS[name]
        elif name in OTHERS:
            names[name] = OTHERS[name]
        elif "fact" in k and name[0].islower():
            if re.search(r"[A-Z-]", name):
                names[name] = upper(name)
        elif re.search(r"-|[a-z0-9][A-Z]", name):
            names[name] = snake(name) if name[0].islower() else name.replace("-", "_")
    taken = {n for n in kinds if n not in names} | {new for old, new in names.items() if "-" not in old}
    for name, new in names.items():
        if "-" in name and new in taken and name not in OTHERS:
            names[name] = new + "_lem"
    return names


def split(line, comment):
    """The line's code, and its comment."""
    at = line.find(comment)
    if at < 0 or line[:at].count('"') % 2:
        return line, ""
    return line[:at], line[at:]


def turn(text, names, comment, parts=None):
    """The text with its names respelled; in comments those without a dash alone, since words have dashes too.

    Where `parts` is given the text is a proof that walks the code: behind a dot it has names that Rattle made, so only fields turn there.
    """
    out = []

    def new(m):
        name = m.group(0)
        if parts is not None and m.string[: m.start()].endswith("."):
            if name not in parts or re.match(r"\.(ensures|result|new|now|exit|type_inv|lifetimes|requires)\b", m.string[m.end() :]):
                return name
        return names.get(name, name)

    for line in text.split("\n"):
        body, rest = split(line, comment)
        body = TOKEN.sub(new, body)
        rest = TOKEN.sub(lambda m: names.get(m.group(0), m.group(0)) if "-" not in m.group(0) else m.group(0), rest)
        out.append(body + rest)
    return "\n".join(out)


def one(text, old, new, comment, label):
    """A single name. Where `label`, never where it is a field: behind a dot, before '=' in a record, or declared with an indent."""
    plain = r"(?<![\w'·.-])" + re.escape(old) + r"(?![\w'·-])"
    where = plain + r"(?! =[^=]| +: )|" + plain + r"(?= : .*Type 0\s*$)" if label else plain
    lines = [split(line, comment) for line in text.split("\n")]
    return "\n".join(re.sub(where, new, body) + rest for body, rest in lines)


def module(path):
    return path.replace("crates/", "Rattle.").replace(".antt", "").replace("/", ".")


def main():
    antt = sorted(glob.glob("crates/*/specs/*.antt") + glob.glob("crates/*/proofs/**/*.antt", recursive=True))
    source = sorted(glob.glob("crates/*/src/*.rt"))
    edits = sorted(glob.glob("crates/*/must-fail/*.edit") + glob.glob("oracle/faults/*/*.edit"))
    pages = sorted(glob.glob("*.md") + glob.glob("docs/**/*.md", recursive=True) + glob.glob("oracle/*.md"))
    kinds = declared(antt)
    names = renaming(kinds)
    parts = {n for n, k in kinds.items() if "part" in k}
    texts = {p: read(p) for p in antt + source + edits + pages}
    was = dict(texts)
    for place, old, new in LEMMAS:
        users = [place] + [p for p in antt if re.search(r"use " + re.escape(module(place)) + r"\.\{[^}]*(?<![\w'·-])" + old + r"(?![\w'·-])", texts[p])]
        for p in users:
            texts[p] = one(texts[p], old, new, "--", False)
    for (place, old), new in COMMON.items():
        users = [place] + [p for p in antt + source if re.search(r"use " + re.escape(module(place)) + r"\.\{[^}]*(?<![\w'·-])" + old + r"(?![\w'·-])", texts[p])]
        for p in users:
            texts[p] = one(texts[p], old, new, "//" if p.endswith(".rt") else "--", True)
    for p in antt:
        texts[p] = turn(texts[p], names, "--", parts if walks(p) else None)
    for p in source:
        texts[p] = turn(texts[p], names, "//")
    for p in edits:
        texts[p] = turn(texts[p], names, "#")
    for p in pages:
        texts[p] = re.sub(r"`[^`\n]+`", lambda m: TOKEN.sub(lambda t: names.get(t.group(0), t.group(0)), m.group(0)), texts[p])
    changed = 0
    for p, t in texts.items():
        if t != was[p]:
            changed += 1
            with open(p, "w", encoding="utf-8", newline="") as f:
                f.write(t)
    print(f"respell: {len(names)} names, {changed} files")
    if "--names" in sys.argv:
        for old, new in sorted(names.items()):
            print(old, new)


if __name__ == "__main__":
    main()
