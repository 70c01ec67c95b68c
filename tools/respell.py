#!/usr/bin/env python3
"""Respells this repository's own definitions and lemmas, as today's Rattle spells its own.

usage: python3 tools/respell.py        at the top of the repository, once, on what port.py wrote

Words are in snake case (`refusalOf` becomes `refusal_of`), and a dash stays only where it joins two names, as in
`fold-append`. Names of src/, of the library and of what Rattle generates are left, and so are names in capitals.
It goes by text: a name is respelled where a file of specs/ or proofs/ declares it, and where it is cited, in these
files, in clauses, in must-fail edits, and between backticks on the pages. It ends with 1 where two names fall together.
"""

import glob
import os
import re
import sys

TOP = os.getcwd()
OWN = {os.path.basename(os.path.dirname(p)) for p in glob.glob(f"{TOP}/crates/*/")}
NAME = re.compile(r"[A-Za-z0-9_'\u0370-\u03ff\u1e00-\u1eff\u2080-\u209c\U0001d400-\U0001d7ff]"
                  r"[-A-Za-z0-9_'→⇔\u0370-\u03ff\u1e00-\u1eff\u2080-\u209c\U0001d400-\U0001d7ff]*")
MARKS = r"(?:(?:unfoldable|abbrev|pub|mutual)\s+)*"
DECLARES = re.compile(rf"^\s*{MARKS}([^\s:(){{}}=,;]+(?:\s+[^\s:(){{}}=,;]+)*)\s*(?:\{{[^}}]*\}}\s*)*:\s")
RULESET = re.compile(rf"^\s*{MARKS}ruleset\s+(\S+)")
WORDS = {"data", "record", "module", "use", "infixl", "infixr", "infix", "in", "where", "unfolding", "open", "elim"}
# what the library's lemmas are named by, so that a dash joins such names
LIBRARY = {"length", "take", "drop", "map", "append", "set", "get", "reverse", "replicate", "cond", "not", "and", "or",
           "add", "mul", "sub", "neg", "div", "mod", "pow", "zero", "one", "suc", "nat", "eq", "ne", "lt", "le"}


# a lemma that would have its definition's name
LEMMAS = {"taken-all": "taken_all_lem", "failing-lines": "failing_lines_lem", "run_length": "run_length_lem",
          "first_one": "first_one_lem", "residue-of": "residue_of_lem", "weighted-by": "weighted_by_lem"}
# a name that would fall together with a field or a variable of the code
OTHERS = {"at-end": "at_input_end", "nextRow": "next_row_index", "partEnd": "part_end_of"}

# names that the rule does not reach: with a dot for a namespace, and lemmas over a function's own records
PLAIN = {"·isRing": "_is_ring", "·isDomain": "_is_domain", "local-row": "local_row", "factor-place": "factor_place",
         "main-line": "main_line", "all-masks": "all_masks", "tload-lengths-ruled": "tload_lengths_ruled",
         "tload-lengths": "tload_lengths", "instruction-word-ruled": "instruction_word_ruled",
         "zero-row-folds": "zero_row_folds", "one-zero_row": "one_zero_row"}


def is_repo_path(path):
    parts = path.split(".")
    return parts[0] == "Rattle" and len(parts) > 1 and parts[1] in OWN


def files(pattern):
    return sorted(p for p in glob.glob(f"{TOP}/crates/{pattern}", recursive=True) if "/out/" not in p)


def lines_of(path):
    with open(path, encoding="utf-8") as f:
        return f.read().split("\n")


def uses(text):
    """Each use line of a file: the path, the names that it takes with what they are called here, and a module's alias."""
    for m in re.finditer(r"^\s*(?:pub |ghost )*use ([^;\n]*?);?$", text, re.M):
        body = m.group(1)
        names = []
        alias = None
        b = re.match(r"(.*?)\.\{(.*)\}$", body)
        if b:
            path = b.group(1)
            for item in b.group(2).split(","):
                item = item.strip()
                if item:
                    old, _, new = item.partition(" as ")
                    names.append((old.strip(), (new or old).strip()))
        else:
            path, _, alias = body.partition(" as ")
            alias = alias.strip() or path.split(".")[-1]
        yield path.strip(), names, alias


def declared(path):
    """The names that a file declares, and those of them that are fields of its records."""
    names, fields = set(), set()
    record_at = None
    for line in lines_of(path):
        bare = line.split("--")[0] if line.lstrip().startswith("--") else line
        if not bare.strip() or re.match(r"\s*(pub )?use ", bare):
            continue
        indent = len(bare) - len(bare.lstrip())
        if record_at is not None and indent <= record_at:
            record_at = None
        if re.match(rf"^\s*{MARKS}record\s", bare):
            record_at = indent
            continue
        m = RULESET.match(bare)
        if m:
            names.add(m.group(1))
            continue
        m = DECLARES.match(bare)
        if not m:
            continue
        words = m.group(1).split()
        if words[0] in WORDS or words[0] == "let" or re.search(r":\s*tie\.|:\s*(stated|goal)\.", bare):
            continue
        for w in words:
            if NAME.fullmatch(w):
                names.add(w)
                if record_at is not None:
                    fields.add(w)
    return names, fields


def is_to_respell(name):
    if re.fullmatch(r"[A-Z0-9_-]+", name) or name.endswith(("-spec", "_spec")):
        return False
    return bool(re.search(r"[a-z0-9']-[A-Za-z0-9]", name) or re.search(r"^[a-z][a-z0-9_]*[A-Z]", name) or re.search(r"-[a-z]+[A-Z]", name))


def snake(part):
    """A part without dashes in snake case; a type's name keeps its capital."""
    if part[:1].isupper():
        return part
    part = re.sub(r"(?<=[a-z0-9])([A-Z])(?=[a-z])", lambda m: "_" + m.group(1).lower(), part)
    return re.sub(r"(?<=[a-z0-9])([A-Z]+)(?![a-z])", lambda m: "_" + m.group(1).lower(), part)


def joined(name, vocabulary):
    """The parts joined: by a dash between two names of the vocabulary, else by an underscore."""
    parts = [snake(p) for p in name.split("-")]
    names = []
    i = 0
    while i < len(parts):
        for n in range(len(parts) - i, 0, -1):
            word = "_".join(parts[i:i + n])
            if n == 1 or (word in vocabulary and n < len(parts)):
                names.append((word, word in vocabulary))
                i += n
                break
    text = names[0][0]
    for (_, left), (word, right) in zip(names, names[1:]):
        text += ("-" if left and right else "_") + word
    return text


def main():
    specs, proofs = files("*/specs/**/*.antt"), files("*/proofs/**/*.antt")
    names, fields, where = {}, set(), {}
    for path in specs + proofs:
        found, some = declared(path)
        where[path] = found
        fields |= some
        for n in found:
            names.setdefault(n, set()).add("specs" if path in specs else "proofs")
    functions = {snake(n.replace("-", "_")) for n, k in names.items() if "specs" in k}
    turned = {}
    for n, kinds in names.items():
        if is_to_respell(n):
            turned[n] = joined(n, LIBRARY if "specs" in kinds else LIBRARY | functions)
    turned.update(LEMMAS)
    turned.update(OTHERS)
    turned = {a: b for a, b in turned.items() if a != b}
    kit = set()
    for path in specs + proofs + files("*/src/**/*.rt"):
        text = open(path, encoding="utf-8").read()
        for p, some, _ in uses(text):
            if not is_repo_path(p):
                kit |= {old for old, _ in some}
    both = sorted(set(turned) & kit)
    if both:
        print("declared here, and of the library too:", *both)
    pairs = [(a, b) for a, b in turned.items() if b in names and b not in turned]
    back = {}
    for a, b in turned.items():
        back.setdefault(b, []).append(a)
    pairs += [tuple(v) for v in back.values() if len(v) > 1]
    # names of different files may, where no file has both
    fell = []
    for path in specs + proofs + files("*/src/**/*.rt"):
        tokens = set(NAME.findall(open(path, encoding="utf-8").read()))
        fell += [(os.path.relpath(path, TOP), *v) for v in pairs if len(tokens & set(v)) > 1]
    for f in fell:
        print("these fall together:", *f)
    edits = files("*/must-fail/*.edit")
    for path in specs + proofs + files("*/src/**/*.rt") + edits:
        respell(path, turned, fields, where, both)
    pages = [p for p in glob.glob(f"{TOP}/*.md") + glob.glob(f"{TOP}/**/*.md", recursive=True) if not re.search("/(out|target|landings)/", p)]
    for path in sorted(set(pages)):
        text = open(path, encoding="utf-8").read()
        new = re.sub(r"`[^`\n]*`", lambda m: NAME.sub(lambda n: turned.get(n.group(0), n.group(0)), m.group(0)), text)
        if new != text:
            open(path, "w", encoding="utf-8").write(new)
    print(len(turned), "names respelled")
    return 1 if fell else 0


def respell(path, turned, fields, where, both):
    text = open(path, encoding="utf-8").read()
    if "/run_pairs/" in path:
        turned = {a: b for a, b in turned.items() if a != "run_length"}
    kit, aliases = set(), set()
    for p, some, alias in uses(text):
        if is_repo_path(p):
            aliases.add(alias)
        else:
            kit |= {new for _, new in some}
    here = where.get(path, set())

    def token(m):
        n = m.group(0)
        if n not in turned or (path.endswith(".rt") and n in LEMMAS and "-" not in n):
            return n
        before = text[:m.start()]
        if before.endswith("."):
            owner = re.search(r"([\w'-]+)\.$", before)
            if n in fields or (owner and owner.group(1) in aliases):
                return turned[n]
            return n
        if n in both and n in kit and n not in here:
            return n
        return turned[n]

    # use lines of the library, and the path of a line, are left
    out = []
    at = 0
    for m in re.finditer(r"^[ \t]*(?:pub |ghost )*use [^\n]*$", text, re.M):
        out.append(piece(text, at, m.start(), token))
        line = m.group(0)
        path_m = re.match(r"[ \t]*(?:pub |ghost )*use ([\w.'-]+)", line)
        if path_m and is_repo_path(path_m.group(1)) and "{" in line:
            brace = m.start() + line.index("{")
            out.append(text[m.start():brace])
            out.append(piece(text, brace, m.end(), token))
        elif path_m and path_m.group(1).split(".")[0] not in ("Rattle",) and "as" not in line and line.strip().startswith("open"):
            out.append(piece(text, m.start(), m.end(), token))
        else:
            out.append(line)
        at = m.end()
    out.append(piece(text, at, len(text), token))
    new = "".join(out)
    if path.endswith(".antt"):
        for old, word in PLAIN.items():
            new = re.sub(re.escape(old) + r"(?![\w'-])", word, new)
    if new != text:
        open(path, "w", encoding="utf-8").write(new)


def piece(text, start, end, token):
    out = []
    at = start
    for m in NAME.finditer(text, start, end):
        out.append(text[at:m.start()])
        out.append(token(m))
        at = m.end()
    out.append(text[at:end])
    return "".join(out)


if __name__ == "__main__":
    sys.exit(main())
