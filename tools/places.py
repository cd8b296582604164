#!/usr/bin/env python3
"""Lists the places in src/ that an older form of the language may have left, for docs/DESIGN-PASS.md.

Each number is a point of that page. The patterns find more than is wrong and less than there is: they make a count that
can be taken again, and every place they find is read.

usage: python3 tools/places.py [FOLDER]      FOLDER holds crates/, by default the working folder
"""

import collections
import pathlib
import re
import sys

ROOT = pathlib.Path(sys.argv[1] if len(sys.argv) > 1 else ".")
FILES = sorted(ROOT.glob("crates/*/src/**/*.rt"))


def without_comments(text):
    return re.sub(r"//[^\n]*", "", text)


def functions(text):
    """Each function as (name, signature, clauses, body)."""
    for match in re.finditer(r"\bfn (\w+)", text):
        depth, at = 0, match.end()
        while at < len(text) and not (depth == 0 and text[at] in "{;" and not clause_opens(text, at)):
            if clause_opens(text, at):
                at = closing(text, at)
            elif text[at] in "([":
                depth += 1
            elif text[at] in ")]":
                depth -= 1
            at += 1
        head = text[match.start():at]
        body = text[at:closing(text, at) + 1] if at < len(text) and text[at] == "{" else ""
        cut = re.search(r"\n\s*(requires|ensures)\b", head)
        signature, clauses = (head[:cut.start()], head[cut.start():]) if cut else (head, "")
        yield match.group(1), signature, re.findall(r"(?:requires|ensures)\*?\s*\w*\s*\{(.*?)\}\s*\n", clauses + "\n", re.S), body


def clause_opens(text, at):
    return text[at] == "{" and re.search(r"(?:requires|ensures)\*?\s*\w*\s*$", text[:at][-60:]) is not None


def closing(text, at):
    depth = 0
    while at < len(text):
        depth += {"{": 1, "}": -1}.get(text[at], 0)
        if depth == 0:
            return at
        at += 1
    return at - 1


def shape(body):
    """A body without what may differ between twins: names in capitals or after a path, numbers, text."""
    body = re.sub(r'b?"[^"]*"|b?\'[^\']*\'', '"', body)
    body = re.sub(r"\b\d[\w_]*\b", "0", body)
    return re.sub(r"\b[a-zA-Z_]\w*\b", "i", re.sub(r"\s+", "", re.sub(r"\b(let|mut|for|in|if|else|match|return|as)\b", r"<\1>", body)))


found = collections.defaultdict(list)
twins = collections.defaultdict(list)
facts = collections.defaultdict(list)
pairs = collections.defaultdict(list)
for file in FILES:
    text = without_comments(file.read_text())
    where = str(file.relative_to(ROOT / "crates"))
    for name, body in re.findall(r"\benum (\w+)[^{]*\{(.*?)\n\}", text, re.S):
        variants = re.findall(r"^    (\w+)(\(|\s*\{)?", body, re.M)
        if len(variants) == 2 and any(rest for _, rest in variants):
            found[1].append(f"{where}: enum {name} has two variants, one with a value")
    for name, body in re.findall(r"\bstruct (\w+)[^{;]*\{(.*?)\n\}", text, re.S):
        if re.search(r": bool,", body):
            found[1].append(f"{where}: struct {name} has a flag")
        if re.search(r"\[\w+(; \w+)?\],", body) and re.search(r": usize,", body):
            found[6].append(f"{where}: struct {name} is a buffer with a number beside it")
        twins["struct" + shape(body)].append(f"{where}: struct {name}")
    for kind in re.findall(r"\bimpl(?:<[^{]*?>)? (Default|PartialEq|Eq|PartialOrd|Ord|Clone|Copy|Debug) for (\w+)", text):
        found[4].append(f"{where}: impl {kind[0]} for {kind[1]}")
    for line in text.splitlines():
        if re.search(r"\bfor .* in .*\.\.|\bwhile\b|\.enumerate\(\)|\b[a-z_]+ [+-]= 1;", line):
            found[3].append(f"{where}: {line.strip()}")
        if re.search(r"\bas (u8|u16|u32|u64|usize|char)\b", line):
            found[4].append(f"{where}: {line.strip()}")
    for name, signature, clauses, body in functions(text):
        if "&mut [" in signature and re.search(r"-> (bool|usize|u8)\b", signature):
            (found[6] if "-> usize" in signature else found[1]).append(f"{where}: fn {name} answers a number or flag beside what it writes")
        if re.search(r"-> u8\b", signature) and "match" in body:
            found[1].append(f"{where}: fn {name} answers a code")
        if re.search(r"^(write|print|show|report|number|answer|key|to|from|into)\w*$|_of$|^is_named$|^(word|bytes)$", name) and body:
            found[4].append(f"{where}: fn {name} converts, compares or prints")
        if len(shape(body)) > 17 and "assert" not in body:
            twins[shape(body)].append(f"{where}: fn {name}")
        for clause in clauses:
            facts[re.sub(r"\s+", " ", clause).strip()].append(f"{where}: fn {name}")
            for term in re.findall(r"take [\w.]+ [\w.]+|\w+_of (?:\w+|\(?self\.\w+(?:\.\w+)*)", clause):
                facts[term].append(f"{where}: fn {name}")
        names = re.findall(r"(\w+): (&?(?:mut )?[\w\[\]; ]+)", signature)
        for i, first in enumerate(names):
            for second in names[i + 1:]:
                pairs[f"{first[0]}: {first[1]}, {second[0]}: {second[1]}"].append(f"{where}: fn {name}")
        for arm in re.findall(r"(?:b\"[^\"]*\"|b?'[^']*') => [^\n]*\(", body):
            found[7].append(f"{where}: fn {name}: {arm.strip()}")
for group in twins.values():
    if len(group) > 1:
        found[2].append("; ".join(group))
for fact, where in list(facts.items()) + list(pairs.items()):
    if len(set(where)) >= 3:
        found[5].append(f"{fact}: {len(set(where))} functions ({'; '.join(sorted(set(where)))})")
for crate in sorted({file.relative_to(ROOT / 'crates').parts[0] for file in FILES}):
    proofs = sorted((ROOT / "crates" / crate / "proofs").rglob("*.antt"))
    lines = sum(len(p.read_text().splitlines()) for p in proofs)
    if proofs:
        found[8].append(f"{crate}: {len(proofs)} files, {lines} lines of proofs")

for point in sorted(found):
    print(f"point {point}: {len(found[point])}")
    for place in found[point]:
        print(f"    {place}")
