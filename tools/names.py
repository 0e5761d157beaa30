#!/usr/bin/env python3
"""names [--list] [--except NAME,..]: brings this repository's own definitions and lemmas to snake case, at the top of the repository.

Own names are those that specs/ and the lemma files of proofs/ declare: definitions, lemmas, constructors and fields.
camelCase becomes snake_case. A dash stays where it joins two names of definitions, as in 'up-raise', and becomes '_'
elsewhere, as in 'valid_iff'; PLAIN below has those where that came out unevenly. A name with a capital at its head (a type, a fact, a relay of the album) keeps it, and so
do the names that Rattle makes (in Proof.antt, Invariants.antt and Answers.antt only own names are respelled).
It respells whole words in .antt files, in the clauses, imports and comments of .rt files, in must-fail edits, and the
names in backquotes of the pages; code, strings, inputs and outputs stay. It was run once, over what KIT/port/port.py had made of
the last commit in the older language. --list prints the respellings and the names that would fall together, and changes nothing.
"""
import glob, os, re, sys

LIST = "--list" in sys.argv
KEEP = set(sys.argv[sys.argv.index("--except") + 1].split(",")) if "--except" in sys.argv else set()
MADE = ("Proof.antt", "Invariants.antt", "Answers.antt")
WORD = re.compile(r"[^\s(){}\[\].,;:\"⌜⌝`]+")
FIRST = re.compile(r"\s*((?:abbrev|unfoldable|transparent|opaque|pub|private|field)\s+)*(?:(record|data)\s+(?:pub\s+)?)?([^\s(){}\[\].,;:]+)((?:\s+[({].*?[)}])*)\s+:(?:\s|$)")

antt = sorted(glob.glob("crates/*/specs/**/*.antt", recursive=True) + glob.glob("crates/*/proofs/**/*.antt", recursive=True))
text = {f: open(f, encoding="utf-8").read() for f in antt}


def snake(part):
    if not part[:1].islower():
        return part
    part = re.sub(r"(?<=[a-z0-9])([A-Z])(?=[a-z]|$|[0-9])", lambda m: "_" + m.group(1).lower(), part)
    return re.sub(r"(?<=[a-z0-9])([A-Z]+)", lambda m: "_" + m.group(1).lower(), part)


# what is declared, and where
own = {}
for f in antt:
    if os.path.basename(f) in MADE:
        continue
    for line in text[f].split("\n"):
        m = FIRST.match(line)
        if m and not line.lstrip().startswith("--") and re.match(r"[a-zA-Z]", m.group(3)):
            own.setdefault(m.group(3), set()).add(f)

# what a dash may join: own names without a dash, and words of the library that files import
known = {snake(n) for n in own if "-" not in n} | {n for n in own if "-" not in n}
for f in antt:
    for m in re.finditer(r"^\s*use \S+\.\{([^}]*)\}", text[f], re.M):
        known |= {w.strip() for w in m.group(1).split(",") if "-" not in w}
known |= {"length", "take", "drop", "map", "sum", "append", "filter"}
WORDS = {"iff", "of", "at", "is", "in", "no", "not", "one", "two", "all", "same", "less", "more", "next", "rest", "by", "to", "from", "end", "fact", "facts", "lem", "none", "last", "first", "up", "down", "kept", "holds", "cases", "given", "known", "only"}


# lemmas whose pairs would come out unevenly, as 'read-then_write' beside 'write_then-read': plain words throughout
PLAIN = {"ran-events-are", "reached-not-recorded", "reached-not-released", "reached-not-reopened", "read-goes-on", "read-then-write",
         "since-not-asked", "since-not-worked", "was-taken-then", "word-announcement-in", "word-release-in", "work-head-says",
         "write-goes-on", "write-then-read"}


def respelt(name):
    if name in KEEP:
        return name
    if name in PLAIN:
        return name.replace("-", "_")
    parts = [snake(p) for p in name.split("-")]
    out = parts[0]
    for i in range(1, len(parts)):
        left = any("_".join(parts[j:i]) in known for j in range(i))
        right = any("_".join(parts[i:j]) in known for j in range(i + 1, len(parts) + 1))
        plain = parts[i] in WORDS or parts[i - 1] in WORDS and i == 1
        out += ("-" if left and right and not plain else "_") + parts[i]
    return out


new = {n: respelt(n) for n in own}
new = {n: m for n, m in new.items() if n != m}



def brought(t):
    """the names that a file brings in or declares"""
    names = set()
    for m in re.finditer(r"^\s*use [^{}\n]*\{([^}]*)\}", t, re.M):
        names |= {w.strip().split(" as ")[-1] for w in m.group(1).split(",")}
    for line in t.split("\n"):
        m = FIRST.match(line)
        if m and not line.lstrip().startswith("--"):
            names.add(m.group(3))
    return names


# a lemma that would have the name of a definition beside it gets _lem
here = {f: brought(t) for f, t in text.items()}
for _ in range(2):
    for f in antt:
        for n in sorted(here[f] & new.keys(), key=lambda n: "-" not in n):
            m = new[n]
            if m in here[f] - new.keys() or any(o != n and new[o] == m for o in here[f] & new.keys()):
                if "-" in n:
                    new[n] = m + "_lem"
clash = [(f, n, new[n]) for f in antt for n in here[f] & new.keys()
         if new[n] in here[f] - new.keys() or any(o != n and new[o] == new[n] for o in here[f] & new.keys())]
# the other way round: a lemma that has the name already to which its definition comes
lemma = {m for f, n, m in clash if m in own and m not in new}
clash = [(f, n, m) for f, n, m in clash if m not in lemma]

if LIST:
    for n, m in sorted(new.items()):
        print(n, m)
    for f, n, m in clash:
        print("falls together: %s: %s with %s" % (f, n, m))
    print("%d names respelt, %d fall together" % (len(new), len(clash)))
    sys.exit(1 if clash else 0)



def respell(s):
    def one(m):
        n = new.get(m.group(0), m.group(0))
        # a field that Rattle makes is no lemma
        return m.group(0) if n.endswith("_lem") and s[m.start() - 1:m.start()] == "." else n
    return WORD.sub(one, s)


changed = 0
for f in antt:
    t = text[f]
    for m in lemma & here[f]:
        t = re.sub(r"(?<![\w.'-])%s(?![\w.'-])" % m, m + "_lem", t)
    if respell(t) != text[f]:
        open(f, "w", encoding="utf-8").write(respell(t))
        changed += 1
# in Rust's text only clauses, imports of ghosts, and comments
for f in sorted(glob.glob("crates/*/src/**/*.rt", recursive=True)):
    was, out, deep = open(f, encoding="utf-8").read(), [], 0
    for line in was.split("\n"):
        if deep or re.match(r"\s*(ghost|requires|ensures|invariant|decreases|#\[tactic)", line):
            line2 = respell(line)
            deep = max(0, deep + line.count("{") + line.count("(") - line.count("}") - line.count(")"))
        else:
            i = line.find("//")
            line2 = line if i < 0 else line[:i] + respell(line[i:])
        out.append(line2)
    if "\n".join(out) != was:
        open(f, "w", encoding="utf-8").write("\n".join(out))
        changed += 1
for f in sorted(glob.glob("crates/*/must-fail/*.edit")):
    was, out, ghost = open(f, encoding="utf-8").read(), [], False
    for line in was.split("\n"):
        if line.startswith("file:"):
            ghost = line.rstrip().endswith(".antt")
        if ghost or re.search(r"\b(ensures|requires|ghost)\b", line):
            line = respell(line)
        out.append(line)
    if "\n".join(out) != was:
        open(f, "w", encoding="utf-8").write("\n".join(out))
        changed += 1
# pages: names in backquotes
for f in sorted(glob.glob("*.md") + glob.glob("docs/*.md") + glob.glob("outside/*.md")):
    was = open(f, encoding="utf-8").read()
    now = re.sub(r"`[^`\n]+`", lambda m: respell(m.group(0)), was)
    if now != was:
        open(f, "w", encoding="utf-8").write(now)
        changed += 1
print("%d names respelt in %d files" % (len(new), changed))
