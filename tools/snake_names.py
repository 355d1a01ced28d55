#!/usr/bin/env python3
"""Respells the definitions, lemmas, fields and constructors that this repository declares in .antt files: words in snake case,
as `upperByte` and `iterate-add` become `upper_byte` and `iterate_add`. Types and modules keep theirs. Clauses in .rt files and
the texts of edits follow. Run once, after the port's own script. It prints names that would fall together and leaves those alone."""

import collections
import os
import re
import sys

ROOT = os.path.join(os.path.dirname(os.path.realpath(__file__)), "..")
WORD = r"[A-Za-z0-9_'\u2032\u2080-\u2089]+(?:-[A-Za-z0-9_'\u2032\u2080-\u2089]+)*"
TOKEN = re.compile(WORD)
HEAD = re.compile(r"^(?:(?:abbrev|unfoldable|pub|data|record|module|private|syntax|ruleset)\s+)*(" + WORD + r")\s*(?:[({:].*)?$")
FIELD = re.compile(r"^\s+(?:pub\s+)?(" + WORD + r")\s*:(?!:)")
KEEP = {"constructor"}


# Where two names would fall together: the one that is asked for less often gets another.
OTHER = {"by-kind": "by_each_kind", "in-range": "is_in_range", "inOrder": "in_their_order", "bit-and": "bit_of_and", "bit-or": "bit_of_or", "refusedBITS": "refused_field"}
LOCAL = [
    ("claims_isolation/proofs/Values.antt", "after_read", "reading_after"),
    ("claims_clauses/proofs/Noise.antt", "in_frame", "within_frame"),
    ("claims_editions/proofs/Faults.antt", "past_end", "past_its_end"),
    ("claims_histories/proofs/Told.antt", "seen_if", "seen_in_front"),
    ("claims_assembling/proofs/Records.antt", "write_bytes", "bytes_of_write"),
    ("claims_queue/proofs/Complete.antt", "goes_on", "going_on"),
    ("tool_plan/proofs/", "goes_on", "goes_on_there"),
    ("claims_assembling/proofs/", "decimal_digit", "digit_of_decimal"),
]


def snake(name):
    if name in OTHER:
        return OTHER[name]
    kebab = "-" in name
    name = name.replace("\u2032", "'").replace("-", "_")
    if not kebab and re.match(r"^[a-z]", name):
        name = re.sub(r"([A-Z])([A-Z][a-z])", r"\1_\2", re.sub(r"([a-z0-9'])([A-Z])", r"\1_\2", name)).lower()
    return name


def files(where, *ends):
    for folder, dirs, names in os.walk(os.path.join(ROOT, where)):
        dirs[:] = sorted(d for d in dirs if d not in ("out", "target"))
        for n in sorted(names):
            if n.endswith(ends):
                yield os.path.join(folder, n)


def walked(path):
    return os.path.basename(path) in ("Proof.antt", "Answers.antt", "Invariants.antt")


def code_only(line):
    return re.sub(r"(^|\s)--.*", "", line)


def own_crates():
    return {d for d in os.listdir(os.path.join(ROOT, "crates"))}


def declared():
    names = collections.defaultdict(set)
    for path in files("crates", ".antt"):
        if walked(path):
            continue
        for line in open(path, encoding="utf-8"):
            line = code_only(line.rstrip("\n"))
            m = HEAD.match(line) if not line.startswith(("use ", "unfolding", "    ", "mod ", "pub mod ", "module ")) else None
            if m and ":" in line:
                names[m.group(1)].add(path)
            m = FIELD.match(line)
            if m:
                names[m.group(1)].add(path)
    return names


def imported(text, own):
    """The names that a file takes from libraries."""
    got = set()
    for m in re.finditer(r"^\s*(?:pub )?(?:ghost )?use ([^\n{;]*?)(?:\.\{([^}]*)\})?(?: as [^\n]*)?;?$", text, re.M):
        parts = m.group(1).strip().split(".")
        if len(parts) > 1 and parts[0] == "Rattle" and parts[1] in own:
            continue
        for n in (m.group(2) or "").split(","):
            got |= {w for w in n.strip().split(" as ")}
    return got


def main():
    own = own_crates()
    names = declared()
    wanted = {}
    for n in names:
        if n in KEEP or not re.match(r"^[a-z]", n):
            # A lemma that begins with a capital's name, as `RAF-rises`.
            if not ("-" in n or "\u2032" in n):
                continue
        s = snake(n)
        if s != n:
            wanted[n] = s
    taken = {n for n in names} | set(wanted.values())
    for s in sorted(set(wanted.values())):
        both = [n for n in wanted if wanted[n] == s]
        if len(both) > 1:
            for n in both:
                if "-" in n:
                    wanted[n] = next(x for x in (s + "_holds", s + "_law", s + "_shown") if x not in taken)
                    taken.add(wanted[n])
            if len({wanted[n] for n in both}) < len(both):
                print("together:", both)
    texts = {p: open(p, encoding="utf-8").read() for p in files("crates", ".antt", ".rt")}
    for where, old, new in LOCAL:
        for p in texts:
            if os.path.relpath(p, os.path.join(ROOT, "crates")).startswith(where):
                texts[p] = TOKEN.sub(lambda m: new if m.group(0) == old else m.group(0), texts[p])
    # Names that fall together, file by file.
    clash = collections.defaultdict(set)
    tokens = {p: set(TOKEN.findall(t)) for p, t in texts.items()}
    for p, ts in tokens.items():
        for t in ts:
            if t in wanted and wanted[t] in ts and wanted[t] not in wanted:
                clash[t].add(p)
    two = collections.defaultdict(list)
    for n, s in wanted.items():
        two[s].append(n)
    if "--dry" in sys.argv:
        print(len(wanted), "names")
        for s, ns in sorted(two.items()):
            if len(ns) > 1:
                print("two:", s, ns, [len(names[n]) for n in ns])
        for n, ps in sorted(clash.items()):
            print("clash:", n, wanted[n], len(ps), sorted(os.path.relpath(p, ROOT) for p in ps)[:4], "declared" if wanted[n] in names else "")
        return
    changed = 0
    for p, t in texts.items():
        keep = imported(t, own)

        def to(m):
            n = m.group(0)
            return wanted[n] if n in wanted and n not in keep else n

        out = []
        for line in t.split("\n"):
            mark = "//" if p.endswith(".rt") else "--"
            m = re.search(r"(^|\s)" + mark + r"(\s|$)", line)
            if p.endswith(".rt") and m and '"' in line[: m.start()]:
                m = None
            code, rest = (line[: m.start()], line[m.start():]) if m else (line, "")
            if p.endswith(".rt") and '"' in code and "ghost" not in code:
                pass
            else:
                code = TOKEN.sub(to, code)
            rest = re.sub(r"`[^`]*`", lambda q: TOKEN.sub(to, q.group(0)), rest)
            out.append(code + rest)
        new = "\n".join(out)
        if new != open(p, encoding="utf-8").read():
            open(p, "w", encoding="utf-8").write(new)
            changed += 1
    for p in list(files("docs", ".md")):
        t = open(p, encoding="utf-8").read()
        new = re.sub(r"`[^`\n]*`", lambda q: TOKEN.sub(lambda m: wanted[m.group(0)] if m.group(0) in wanted and re.search("[A-Z]", m.group(0)) else m.group(0), q.group(0)), t)
        if new != t:
            open(p, "w", encoding="utf-8").write(new)
            changed += 1
    for p in list(files("crates", ".edit")) + list(files("edits", ".edit")):
        t = open(p, encoding="utf-8").read()
        out = []
        for line in t.split("\n"):
            if re.match(r"^(old|new): ", line) and '"' not in line:
                line = line[:5] + TOKEN.sub(lambda m: wanted.get(m.group(0), m.group(0)), line[5:])
            out.append(line)
        new = "\n".join(out)
        if new != t:
            open(p, "w", encoding="utf-8").write(new)
            changed += 1
    print(len(wanted), "names,", changed, "files")


main()
