#!/usr/bin/env python3
"""Respells the repository's own definitions and lemmas as the library spells its own.

Words are in snake case, facts (types) in camel case. A dash stays only where it joins two names, as in `length-laid`,
which says what `length` is of something `laid`. Run once, at the top of the repository, on files that have just come
over to the library's spelling; only ghost text and documents are touched.

usage: python3 tools/respell.py
"""

import os
import re

# The names as they were: definitions and fields of specs/, and lemmas of proofs/. Goals keep the names that the check gives.
OLD = """
absorbed-after absorbed-front absorbed-more absorbedAll accountName adding-shown after-end after-sound all-at
allDigits allHex at-digit at-end at-separator begun-sound bigSigma0 bigSigma1 blake2s-of-abc blake2s-with-key
blake2s-without-key block-bytes block-nonce byLetter bytes-append bytes-more bytesIn bytesOfWords case-1-key case-1-tag
chacha-sized chachaStream commandIn compressed-same count-bound count-end count-lines count-more cut-suc doubleRound
doubleRounds drop-end drop-fitting drop-other drop-separator eightRounds ended-after ended-reply
endedIn endedLines entry-below extended-by extended-sound few-parts filled-few filled-whole firstRefused fresh-sound
front-last front-push getD-row hasEnded hash-of-none hash-of-one-block hash-of-two-blocks hashed-after hashed-alone
hashedFrom hexValue hmac-case-1 hmacOf in-phase-sound inPhase isBlank isDigit isHex isOffice isPath key-stream-block
keyBlock keyLength keyPad keyed-of-zero laid-last laid-on-zeros laid-part laid-past last-push later-block later-sound laterLine
lengthBytes line-answered line-counted line-extended line-printed lineIn listed-sound mask-back mask-sized masked-more
masked-push masked-twice mixedAt mixedColumns mixedDiagonals mixedFour mixedRound mixedRounds mixedWords mostAccounts
mostOffices mostSheets names-in-use names-viewed nextWord no-command none-sound numberAndKey officeChecks
officeName onto-length onto-push onto-some own-check padded-after padded-long padded-short padding-wrapped parts-end
pathChecks pathIn pathOf place-below placeFrom placeText places-more printed-end printed-push push-viewed pushed-last
pushed-length pushed-onto pushed-under quarter-after quarter-before quarter-round quarterAt reach-onto read-row
remainder-end remainder-more reply-in-sound replyIn replyTo rest-ends round-behind roundAt roundConstants rounds-eight
rounds-more rowsBelow rowsIn same-checks same-of-xor scheduled-more schemeLine schemeOf set-filled sha256-of-abc
sha256-of-none sha256-of-two-blocks sheetLine smallSigma0 smallSigma1 some-field sound-from spelled-le spelled-more
spelledAfter spelledBytes startWords tagStream take-fitting textIn three-parts whole-blocks with-room withAccounts
withOffices withSheets without-room wordsOf-more workingState written-more zeros-of-or
""".split()

# Names for which the rule does not serve: a dash joins two names, or the name in snake case is taken.
OTHERS = {
    "Keeps-sound": "KeepsSound",
    "ended-in": "ended_in_lem",
    "nextWord-front": "next_word-front",
    "new-row": "new_row_lem",
    "length-bytesOf": "length-bytes_of",
}

# What the library's own spelling script respelled in ghost text, for the documents.
IN_DOCUMENTS = ["answerOf", "blockOf", "bytesOf", "fieldsOf", "lineFor", "lineOf", "newRow", "numberIn", "numberOf", "placeIn", "placeOf", "stateOf", "textOf", "wordAt", "wordIn", "wordOf", "wordsOf"]


def snake(name):
    return re.sub(r"(?<=[a-z0-9])([A-Z])", lambda m: "_" + m.group(1).lower(), name).replace("-", "_")


def pattern(names):
    # a whole name: no character that a name may have stands beside it, and it is no part of a longer name with dashes
    every = "|".join(re.escape(n) for n in sorted(names, key=len, reverse=True))
    return re.compile(r"(?<![\w'\-.])(" + every + r")(?![\w'\-])|(?<=\.)(" + every + r")(?![\w'\-])")


def files(top, ends):
    for folder, dirs, names in os.walk(top):
        dirs[:] = sorted(d for d in dirs if d not in ("out", "target", "must-fail", ".git"))
        for n in sorted(names):
            if n.endswith(ends):
                yield os.path.join(folder, n)


def main():
    new = {n: snake(n) for n in OLD} | OTHERS
    assert len(set(new.values())) == len(new), "two names fall together"
    words = pattern(new)
    taken = pattern(set(new.values()))
    changed = 0
    for path in list(files("crates", (".rt", ".antt"))):
        with open(path, encoding="utf-8") as f:
            text = f.read()
        found = {m.group(0) for m in words.finditer(text)}
        there = {m.group(0) for m in taken.finditer(text)}
        for n in sorted(found):
            if new[n] in there:
                print(f"look: {path}: {n} becomes {new[n]}, which stands there already")
        turned = words.sub(lambda m: new[m.group(0)], text)
        if turned != text:
            changed += 1
            with open(path, "w", encoding="utf-8") as f:
                f.write(turned)
    # in documents, only names that no plain word is spelled like
    told = {n: r for n, r in new.items() if re.search(r"[a-z][A-Z]", n)} | {n: snake(n) for n in IN_DOCUMENTS}
    words = pattern(told)
    for path in ["README.md", *files("docs", (".md",))]:
        with open(path, encoding="utf-8") as f:
            text = f.read()
        turned = words.sub(lambda m: told[m.group(0)], text)
        if turned != text:
            changed += 1
            with open(path, "w", encoding="utf-8") as f:
                f.write(turned)
    print(f"{changed} files respelled")


if __name__ == "__main__":
    main()
