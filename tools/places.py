#!/usr/bin/env python3
"""places.py [-v]: counts, in crates/*/src, the places that docs/DESIGN-PASS.md speaks of, point by point; -v prints each.

Run at the top of the repository. It goes by the text alone: a row is a place to look at, and the page says what became of it.
"""
import glob
import re
import sys

VERBOSE = "-v" in sys.argv
FILES = {f: open(f, encoding="utf-8").read() for f in sorted(glob.glob("crates/*/src/*.rt"))}


def bare(text):
    """The text with its comments blanked, line by line."""
    return re.sub(r"//[^\n]*", "", text)


def by_line(pattern):
    found = []
    for f, text in FILES.items():
        for number, line in enumerate(bare(text).split("\n"), 1):
            if re.search(pattern, line):
                found.append("%s:%d %s" % (f, number, line.strip()))
    return found


def functions():
    """Each function: its file, name, the names of its parameters, and its result."""
    for f, text in FILES.items():
        for m in re.finditer(r"\bfn (\w+)(?:<[^>]*>)?\(([^)]*)\)(?: -> ([^\n{]+))?", bare(text)):
            names = re.findall(r"(?:^|,)\s*(?:mut )?&?(?:mut )?(\w+)\s*(?=[:,]|$)", m.group(2))
            yield f, m.group(1), names, (m.group(3) or "").strip()


def with_parameters(*groups):
    found = []
    for f, name, names, _ in functions():
        for group in groups:
            if all(any(n in alternatives for n in names) for alternatives in group):
                found.append("%s %s(%s)" % (f, name, ", ".join(names)))
                break
    return found


def twins():
    """Functions and types of one crate whose names differ by the form alone, those of a row and of two rows, and their C calls."""
    found = []
    for f, text in FILES.items():
        for m in re.finditer(r"\b(?:fn|struct) (\w+?)(_tracks|_two|_rows|_beside|Tracks|Two)\b", bare(text)):
            found.append("%s %s%s" % (f, m.group(1), m.group(2)))
    return found


ROWS = [
    ("1 own enums", lambda: by_line(r"^\s*(pub )?enum \w")),
    ("1 a number or a flag with values beside it", lambda: by_line(r"^    pub (number|answer|ok|told): (u32|bool|Told),")),
    ("1 constants for kinds, refusals, circuits, tracks, forms", lambda: by_line(
        r"^(pub )?const (ORIGIN|TERMINUS|PEDAL_STATION|ANNOUNCEMENT_STATION|INTERMEDIATE|TAKEN|NOT_VALID|NO_SUCH_\w+|STAMP_BEHIND|SESSION_FULL"
        r"|NO_DEVICE|LEVER_\w+|L_DOWN|RL_\w+|AN_DOWN|AN_UP|KPG_DOWN|NOTHING_\w+|SECTION_FREE|SIGNAL_UNDER_WAY|BUTTON_\w+|\w+_WRONG|WRONG_\w+|WRONG|ROOM_SHORT"
        r"|UPPER_BITS|CIRCUIT_BUSY|POLARISED|VIBRATED|TRACK_ONE|TRACK_TWO|ONE_TRACK|TWO_TRACKS|LAST_CIRCUIT)\b")),
    ("1 tests of a number that stands for a case", lambda: by_line(
        r"\b(number|answer|no|kind|form|circuit|tracks|track) (==|!=|<|>) ([0-9]+\b|([a-z]+::)*[A-Z_]+\b)")),
    ("1 a refusal returned as a number", lambda: by_line(r"^\s*return ([a-z]+::)*[A-Z][A-Z_]+;|^\s*([a-z]+::)*[A-Z][A-Z_]+$|break 'blocks verdict\(")),
    ("1 whether all went well, told by a bool that is handed on", lambda: [
        "%s %s" % (f, n) for f, n, names, result in functions() if "said" in names or "written" in names]),
    ("2 twins by name", twins),
    ("3 while and loop", lambda: by_line(r"\b(while|loop)\b")),
    ("4 equality, conversion and printing by hand", lambda: [
        "%s %s" % (f, n) for f, n, names, result in functions()
        if re.fullmatch(r"same|same_\w+|is|is_start|is_events|is_header|as_signed|wide|word_of|get_word|put_word|number|number_of|mark|circuit_ok"
                        r"|with_here|first|long|flag|end|digits|word", n)]),
    ("5 parameters that travel together", lambda: with_parameters(
        [{"number"}, {"place", "i"}, {"stamp"}],
        [{"tracks"}, {"table"}, {"stamp"}, {"events"}, {"on"}],
        [{"stamp"}, {"kinds"}, {"events"}],
        [{"first", "own"}, {"second", "other"}, {"circuit"}],
        [{"output"}, {"said", "errors"}],
        [{"row", "posts"}, {"n"}],
        [{"kinds"}, {"events"}, {"s"}])),
    ("6 a length beside a buffer", lambda: by_line(r"&(mut )?\w+\[\.\.\w+\]|posts: \[Post; (32|ROOM)\]")),
    ("7 a switch on which step to run", lambda: by_line(r"^\s*match (number|job|act|m|c|g|stage)\b")),
    ("8 names of the check's own in proofs", lambda: [
        "%s:%d" % (f, k) for f in sorted(glob.glob("crates/*/proofs/**/*.antt", recursive=True))
        for k, line in enumerate(open(f, encoding="utf-8"), 1) if re.search(r"(true|false|branch)-raw", line)]),
    ("8 a lemma said once more in full over an earlier place", lambda: [
        "%s:%d" % (f, k) for f in sorted(glob.glob("crates/*/proofs/**/*.antt", recursive=True))
        for k, line in enumerate(open(f, encoding="utf-8"), 1) if re.search(r"\blet it :", line)]),
    ("8 lines of answers and invariants", lambda: [
        "%s:%d" % (f, k) for f in sorted(glob.glob("crates/*/proofs/**/Answers.antt", recursive=True) + glob.glob("crates/*/proofs/**/Invariants.antt", recursive=True))
        for k, line in enumerate(open(f, encoding="utf-8"), 1) if line.strip() and not line.lstrip().startswith("--")]),
]

for name, find in ROWS:
    found = find()
    print("%5d  %s" % (len(found), name))
    if VERBOSE and len(found) < 400:
        for row in found:
            print("         " + row)
