#!/usr/bin/env python3
"""Brings the repository's own definitions and lemmas to today's spelling: words in snake case. Run once, at the top, after the kit's port.py.

Words that stand in camel case in crates/*.antt become words in snake case there, in the clauses of crates/*.rt, in the must-fail edits and in the
pages. Functions of src/, exported names, strings, inputs and outputs keep theirs. Where a lemma already had the snake-case name of a definition,
the lemma gets `_lem`.
"""
import os
import re
import sys

# A lemma beside the definition that now has its name: (lemma, the files that speak of the lemma and not of a field or function of this name).
LEMMAS = {
    "same_id": [
        "log/proofs/FineLaws", "log/proofs/GatheredLaws", "model/proofs/IdLaws", "model/proofs/InsideLaws", "model/proofs/ReadingLaws",
        "model/proofs/SoundLaws", "reading/proofs/Bounds", "reading/proofs/CommonKeys", "soundness/proofs/Whole", "logtable/proofs/AnotherLaws",
    ],
    "wrote_as": [
        "model/proofs/ReadingLaws", "reading/proofs/Bounds", "reading/proofs/Facts", "history/proofs/Collecting", "history/proofs/Lasting",
        "history/proofs/Storing",
    ],
    "head_bytes": ["model/proofs/RangesKept", "image/proofs/PlaceLaws"],
    "is_live": ["model/proofs/ReadYourWrites", "model/proofs/StationLaws", "history/proofs/FirstGet", "history/proofs/Opening"],
    "record_of": ["model/proofs/SlotLaws", "history/proofs/Moving"],
    "live_at": ["model/proofs/SoundKept"],
    "entry_seen": ["moving/proofs/MoveLoop", "exporting/proofs/OrderLaws"],
    "no_read": ["stations/proofs/Sets"],
    "no_write": ["stations/proofs/Sets"],
    "is_read": ["sweeping/proofs/ToCollect"],
    "last_line": ["intake/proofs/RunLaws"],
    "after_read": ["logtable/proofs/HoldsRead"],
    "read_found": ["logtable/proofs/ReadFound"],
}
# A module whose name the check now makes itself.
MOVED = ("crates/history/specs/Contracts.antt", "crates/history/specs/CallContracts.antt", "history.specs.Contracts", "history.specs.CallContracts")

WORD = re.compile(r"(?<![\w'-])[a-z][\w']*(?:-[\w']+)*")
CAMEL = re.compile(r"(?<=[a-z0-9'])([A-Z])")
STRING = re.compile(r'b?"(?:[^"\\]|\\.)*"')


def snake(word):
    return CAMEL.sub(lambda m: "_" + m.group(1).lower(), word).replace("get_d-", "get_or-").replace("-get_d", "-get_or")


def texts(root, *endings):
    for folder, dirs, files in os.walk(root):
        dirs[:] = sorted(d for d in dirs if d not in ("out", "target", ".git"))
        for f in sorted(files):
            if f.endswith(endings):
                yield os.path.join(folder, f)


def read(path):
    with open(path, encoding="utf-8") as f:
        return f.read()


def write(path, text):
    with open(path, "w", encoding="utf-8") as f:
        f.write(text)


def words():
    """Every word in camel case of an .antt file, without its comments, and what it becomes."""
    found = {}
    for path in texts("crates", ".antt"):
        for m in WORD.finditer(re.sub(r"--[^\n]*", "", read(path))):
            if snake(m.group(0)) != m.group(0):
                found[m.group(0)] = snake(m.group(0))
    return found


def outside_strings(text, turn):
    """text with turn applied to what stands in no string literal."""
    out, at = [], 0
    for m in STRING.finditer(text):
        out += [turn(text[at:m.start()]), m.group(0)]
        at = m.end()
    return "".join(out + [turn(text[at:])])


def edit(text):
    """A must-fail edit in today's spelling: the kit's script turns none. What is said of Rust's text keeps its form but for names."""
    text = outside_strings(text, lambda t: WORD.sub(lambda m: snake(m.group(0)), t))
    if not re.search(r"^file: .*\.antt$", text, re.M):
        return re.sub(r"λ r\. ⌜ (.*?) ⌝", lambda m: re.sub(r"\br\b", "result", m.group(1)), text)
    text = text.replace("′", "'").replace("Option·elim", "Option-elim").replace("Option·get_d", "Option.get_or")
    text = re.sub(r"Rattle·(\w+)·(specs|proofs)\.\2\.", r"Rattle.\1.\2.", text)
    text = re.sub(r"Rattle·(\w+)\.", r"Rattle.\1.", text)
    text = re.sub(r"\((\w+ \w+) \.(\w+)\)", r"(\1).\2", text)
    text = re.sub(r"\(([\w']+(?: \.[\w-]+)+)\)", lambda m: m.group(1).replace(" ", ""), text)
    return re.sub(r"(?<=[\w'\)]) \.(?=[a-z])", ".", text)


def main():
    if not os.path.isdir("crates"):
        sys.exit("respell: run it at the top of the repository")
    for lemma, files in LEMMAS.items():
        for name in files:
            path = f"crates/{name}.antt"
            write(path, re.sub(r"(?<![\w'.-])" + lemma + r"(?![\w'-])(?!\.)", lemma + "_lem", read(path)))
    become = words()
    turn_word = lambda m: become.get(m.group(0), m.group(0))
    turn = lambda text: WORD.sub(turn_word, text).replace("Option·elim", "Option-elim").replace(MOVED[2] + ".", MOVED[3] + ".")
    for path in texts("crates", ".antt"):
        write(path, turn(read(path)))
    for path in texts("crates", ".edit"):
        write(path, edit(read(path)))
    for path in texts("crates", ".rt"):
        write(path, outside_strings(read(path), turn))
    for path in [*texts("docs", ".md"), "README.md"]:
        write(path, turn(read(path)))
    if os.path.exists(MOVED[0]):
        os.rename(MOVED[0], MOVED[1])
        lib = "crates/history/specs/Lib.antt"
        write(lib, re.sub(r"\bContracts\b", "CallContracts", read(lib)))
    print(f"respell: {len(become)} words")


main()
