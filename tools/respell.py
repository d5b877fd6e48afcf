#!/usr/bin/env python3
"""Brings the repository's own names of specs/ and proofs/ to the kit's spelling, after port.py.

usage: tools/respell.py [--check]      at the top of the repository, right after port.py and once

Words are in snake case, and a fact (a definition that is a type) in upper camel case. In a lemma's name a dash joins two names of
definitions, and any other word is added with '_'. Modules are in upper camel case. A name whose new spelling is
a field, a parameter or another word already keeps its own. Rust's names, strings and file names below src/ stay as they are.
It prints each name as 'OLD<tab>NEW'; --check writes nothing.
"""
import glob, os, re, subprocess, sys

WORD = re.compile(r'[^\s(){}.;,@"«»\[\]\\`|]+')
DECL = re.compile(r"^(\s*)((?:(?:unfoldable|abbrev|opaque|pub|data|record) )*)([^\s:(){}λ,;|=]+)(?: \{[^}]*\})* : (.*)$")
# Facts: definitions whose values are types.
FACTS = {"messageIn": "MessageIn", "in_range": "InRange", "valueFits": "ValueFits"}
# Beside a field or a definition of that name.
OTHERS = {
    "processOf": "process_of_site",
    "siteOf": "site_of_process",
    "lastRound": "last_round_case",
    "carriedAs": "carried_of",
    "in-transit": "in_transit_lem",
    "in-parts": "in_parts_lem",
    "in-set": "in_set_lem",
}
# What std names so now, in a name of ours.
STD = {"getD": "get_or"}
# Names of std's functions that lemmas of the repository are about.
FUNCTIONS = set(
    "length append get_or set take drop map filter replicate reverse add sub mul div mod pow min max suc zero nil cons le lt eq and or not".split()
)
MODULES = {m: m.capitalize() for m in "statement invariants histories view numbers bridge".split()}


def files():
    for pattern in ("crates/*/specs/**/*.antt", "crates/*/proofs/**/*.antt"):
        yield from sorted(glob.glob(pattern, recursive=True))


def snake(part):
    part = STD.get(part, part)
    if not re.match(r"[a-z]", part):
        return part
    return re.sub(r"([a-z0-9])([A-Z])", lambda m: m.group(1) + "_" + m.group(2).lower(), part)


def gather():
    """Each declared name with whether it is a definition, and every word of the sources."""
    names, words = {}, set()
    for p in files():
        proof = p.endswith("/Proof.antt")
        with open(p, encoding="utf-8") as f:
            for line in f:
                if line.strip().startswith("--"):
                    continue
                words.update(m.group(0) for m in WORD.finditer(line) if line[m.start() - 1 : m.start()] != ".")
                m = DECL.match(line)
                if not m:
                    continue
                name = m.group(3)
                # the names of a function's proof file are the check's; camel case in one is the repository's
                if proof and not re.search(r"[a-z][A-Z]", name):
                    continue
                names[name] = names.get(name, False) or bool(re.search(r"unfoldable|abbrev", m.group(2)))
    for p in glob.glob("crates/*/src/**/*.rt", recursive=True):
        with open(p, encoding="utf-8") as f:
            # what a clause can name: parameters, fields, constants
            code = re.sub(r"//[^\n]*", "", f.read())
            words.update(re.findall(r"(\w+)\s*:(?!:)", code) + re.findall(r"\bconst (\w+)", code))
    return names, words


def spelled(name, defined):
    if name in FACTS or name in OTHERS:
        return FACTS.get(name) or OTHERS[name]
    parts = [snake(p) for p in name.split("-")]
    if len(parts) == 1 or "" in parts:
        return parts[0] if len(parts) == 1 else name
    out, last = parts[0], parts[0]
    for p in parts[1:]:
        joins = (last in defined or last.split("_")[0] in FUNCTIONS) and (p in defined or p in FUNCTIONS)
        out, last = out + ("-" if joins or p[:1].isupper() or out[:1].isupper() else "_") + p, p
    return out


def table():
    names, words = gather()
    defined = {snake(n) for n, d in names.items() if d and "-" not in n}
    out, taken = {}, {}
    # definitions first: a lemma that would have a definition's name gets '_lem'
    for n in sorted(names, key=lambda n: (not names[n], n)):
        new = spelled(n, defined)
        if new == n:
            continue
        if new in taken:
            new += "_lem"
        elif new in names and not names[new]:
            out[new] = new + "_lem"
        elif new in words:
            print(f"kept: {n} ({new} is a word already)", file=sys.stderr)
            continue
        if new in words and new not in out or new in taken:
            sys.exit(f"{n}: {new} is a word already")
        taken[new] = n
        out[n] = new
    return out


def in_code(text, names):
    def word(m):
        return names.get(m.group(0), m.group(0))
    out = []
    for line in text.split("\n"):
        code, dash, said = line, "", ""
        at = re.search(r"(?:^|(?<=\s))--(?=\s|$)", line)
        if at:
            code, said = line[: at.start()], line[at.start() :]
        code = WORD.sub(word, code)
        said = re.sub(r"`[^`]*`", lambda m: WORD.sub(word, m.group(0)), said)
        out.append(code + said)
    return "\n".join(out)


CLAUSE = re.compile(r"(?:requires|ensures)\*?\s*(?:\w+\s*)?\{")


def in_source(text, names):
    """In a .rt file: 'ghost use' items, clauses, and code spans of comments."""
    word = lambda m: names.get(m.group(0), m.group(0))
    text = re.sub(r"ghost use [^;]*;", lambda m: WORD.sub(word, m.group(0)), text)
    text = re.sub(r"`[^`\n]*`", lambda m: WORD.sub(word, m.group(0)), text)
    out, at = [], 0
    for m in CLAUSE.finditer(text):
        if m.start() < at:
            continue
        depth, i = 1, m.end()
        while depth:
            depth += {"{": 1, "}": -1}.get(text[i], 0)
            i += 1
        out += [text[at : m.end()], WORD.sub(word, text[m.end() : i])]
        at = i
    return "".join(out) + text[at:]


def main():
    check = "--check" in sys.argv[1:]
    names = table()
    for n in sorted(names):
        print(f"{n}\t{names[n]}")
    if check:
        return
    for p in list(files()) + sorted(glob.glob("crates/*/src/**/*.rt", recursive=True)):
        with open(p, encoding="utf-8") as f:
            text = f.read()
        new = in_code(text, names) if p.endswith(".antt") else in_source(text, names)
        for m, up in MODULES.items():
            new = re.sub(rf"(Rattle\.agreement\.specs\.){m}\b", rf"\g<1>{up}", new)
            if p == "crates/agreement/specs/Lib.antt":
                new = re.sub(rf"^(pub mod |mod ){m}$", rf"\g<1>{up}", new, flags=re.M)
        if new != text:
            with open(p, "w", encoding="utf-8") as f:
                f.write(new)
    for m, up in MODULES.items():
        for old in (f"crates/agreement/specs/{m}", f"crates/agreement/specs/{m}.antt"):
            if os.path.exists(old):
                subprocess.run(["git", "mv", old, old.replace(f"/{m}", f"/{up}")], check=True)


main()
