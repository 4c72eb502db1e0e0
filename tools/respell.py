#!/usr/bin/env python3
"""Brings the repository's own definitions, lemmas, fields and constructors to today's spelling, once, after the kit's port.py: words in
snake case, facts and types in camel case. Run at the top of the checkout. Names that the checker makes, names of other libraries and names of
src/ stay. Code, strings and comments of .rt files stay too; only their ghost imports and clauses are respelled."""

import glob
import re
import sys

# what a name must not stand beside: these are parts of longer names
PART = r"\w\-'·≢≤<≔⟨⟩◌"
DECLARED = re.compile(
    r"^\s*((?:abbrev |unfoldable |pub |opaque )*)(record |data |ruleset )?([^\s:(){}=.]+)((?: [^\s:(){}=.]+)*)\s*(?:[({].*)?(:|where|=)( |$)")
# names by hand: a fact is spelled as a type, a prefix that is an abbreviation is a word
BY_HAND = {
    "in-io": "InIo", "is-memory": "IsMemory", "is-io": "IsIo", "EOP-ends": "eop_ends", "EOP-ignored": "eop_ignored",
    "chain-of": "chain_of_machine", "changes-upper": "changes_upper_at", "reasons-of": "reasons_of_search", "why-of": "why_of_end",
}
# what port.py respelled into the name of a definition
MOVED = {"goes_on": "goes_on_by_rule", "in_a_row": "in_a_row_lem", "left_by": "left_by_lem", "words_left": "words_left_lem"}
# of one file alone
IN_FILE = {"crates/promises/proofs/InterleaveWitness.antt": {"in_memory": "InMemory"}}


def snake(name):
    words = re.sub(r"(?<=[a-z])(?=\d{2,})", "_", re.sub(r"(?<=[a-z0-9])(?=[A-Z])|(?<=[A-Z])(?=[A-Z][a-z])", "_", name))
    return words.replace("-", "_").lower()


def sources():
    antt = [p for f in ("specs", "proofs") for p in glob.glob(f"crates/*/{f}/**/*.antt", recursive=True)]
    return sorted(antt), sorted(glob.glob("crates/*/src/**/*.rt", recursive=True))


def is_by_hand_proof(path):
    return path.endswith(("/Proof.antt", "/Invariants.antt")) or (path.endswith("/Answers.antt") and "/proofs/" in path)


def names(antt):
    """Each name that a file of the repository declares, with the files that do."""
    found = {}
    for p in antt:
        for line in open(p, encoding="utf-8"):
            m = DECLARED.match(line)
            if not m or line.lstrip().startswith(("use ", "let ", "--", "module ")) or (m.group(5) == "=" and not m.group(2)):
                continue
            for n in [m.group(3), *m.group(4).split()]:
                if is_by_hand_proof(p) and not n.endswith("-spec"):
                    continue
                found.setdefault(n, set()).add(p)
    return found


def foreign(texts):
    out = set()
    for t in texts:
        for m in re.finditer(r"^(?:ghost )?use ((?!Rattle\.(?!std\.|core\.))[^\s{;]+)\.\{([^}]*)\}", t, re.M):
            out |= {n.strip() for n in re.split(r",| as ", m.group(2))}
    return out


def turned(antt, texts):
    own = names(antt)
    other = foreign(texts.values())
    words = set()
    for t in texts.values():
        # neither a module's path, which has functions' names, nor a projection
        bare = re.sub(r"(?m)^use \S+?(?=\.\{|$)|(?<=[\w)])\.\S+?(?=[\s(){},;]|$)", " ", t)
        words |= set(re.findall(rf"[{PART}]+", bare))
    words -= set(MOVED)
    out, taken = dict(MOVED), {}
    # definitions first, so that a lemma of a definition's name is the one that gets `_lem`
    for n in sorted(own, key=lambda n: ("-" in n, n)):
        if not n[0].islower() and n not in BY_HAND:
            continue
        if n in other or not re.search(r"[A-Z\-]", n):
            continue
        new = BY_HAND.get(n) or snake(n)
        if new in taken or new in words:
            if "-" not in n:
                print(f"look: {n} would be {new}, which is there: {sorted(own[n])[0]}")
            new += "_lem" if "-" in n else "_def"
            if new in taken or new in words:
                sys.exit(f"{n}: {new} is taken too")
            print(f"look: {n} is {new}: {' '.join(sorted(own[n]))}")
        out[n] = new
        taken[new] = n
    return out


def respell(text, table):
    names = sorted(table, key=len, reverse=True)
    return re.sub(rf"(?<![{PART}])(?:{'|'.join(map(re.escape, names))})(?![{PART}])", lambda m: table[m.group(0)], text)


def clauses(text, table):
    """Ghost imports and clauses alone, outside strings and comments."""
    out, at = [], 0
    spans = []
    for m in re.finditer(r"^ghost use [^;]*;", text, re.M):
        spans.append(m.span())
    for m in re.finditer(r"\b(?:requires|ensures|ghost)\b[^{;]*\{", text):
        if any(a <= m.start() < b for a, b in spans):
            continue
        depth, i = 1, m.end()
        while depth and i < len(text):
            depth += {"{": 1, "}": -1}.get(text[i], 0)
            i += 1
        spans.append((m.start(), i))
    for a, b in sorted(spans):
        if a < at:
            continue
        out += [text[at:a], respell(text[a:b], table)]
        at = b
    return "".join(out) + text[at:]


def main():
    antt, rt = sources()
    texts = {p: open(p, encoding="utf-8").read() for p in antt + rt}
    table = turned(antt, {p: texts[p] for p in antt})
    for p, t in texts.items():
        here = {k: v for k, v in table.items()} | IN_FILE.get(p, {})
        new = respell(t, here) if p.endswith(".antt") else clauses(t, here)
        if new != t:
            with open(p, "w", encoding="utf-8") as f:
                f.write(new)
    print(f"{len(table)} names respelled")


if __name__ == "__main__":
    main()
