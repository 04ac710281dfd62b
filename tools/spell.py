#!/usr/bin/env python3
"""Spells the repository's own definitions and lemmas as today's Rattle does: words in snake case, types in camel case.

usage: python3 tools/spell.py        at the top, once, right after /opt/rattle/port/port.py

It goes by text. It turns what specs/, proofs/, clauses, ghost imports and must-fail edits say, and the code spans of comments and of *.md.
Functions of src/, exported C names, strings, inputs and outputs keep their names, and so does every name that a file takes from a library or
that Rattle makes of the source. It stops before it writes anything if two names of one file would fall together.
"""

import collections
import glob
import os
import re
import sys

WORD = re.compile(r'[^\s(){}.;,@"«»\x60|]+')
QUIET = re.compile(r'"(?:[^"\\\n]|\\.)*"|(?<![^\s(){}.;,@"«»])--[^\n]*|\{-.*?-\}', re.S)
SPAN = re.compile(r"\x60[^\x60\n]+\x60")
USE = re.compile(r"(?m)^\s*(?:pub )?(?:ghost )?use ([^\s;{]+)(\{[^}]*\})?(?: as (\S+?))?;?$")
OURS = re.compile(r"[A-Za-z][A-Za-z0-9]*(?:-[A-Za-z0-9]+)+['₀-₉]*|[a-z][a-z0-9]*[A-Z][A-Za-z0-9]*['₀-₉]*")
# The parts of a clause in a .rt file, and its ghost imports.
CLAUSE = re.compile(r"ghost use [^;]*;|^\s*(?:requires|ensures)\b.*$|^\s*ghost\b.*$", re.M)
# What Rattle makes of the source stands behind these heads in the proof of a function.
MADE = re.compile(r"(?<![^\s(){}.;,])(?:c|l|w|g|goal|tie|κs)(?:\.[^\s(){};,.]+)+")

# Predicates are types, so they are spelled in camel case; those of one word that is also a field's or a variable's are turned where they stand
# for the predicate.
TYPES = {
    "request-line": "IsRequestLine", "status-line": "IsStatusLine", "field-line": "IsFieldLine", "header-block": "IsHeaderBlock",
    "line-end": "IsLineEnd", "empty-lines": "IsEmptyLines", "request-target": "IsRequestTarget", "request-space": "IsRequestSpace",
    "status-code": "IsStatusCode", "ascii-text": "IsAsciiText", "reason-phrase": "IsReasonPhrase", "status-space": "IsStatusSpace",
    "no-space-left": "NoSpaceLeft", "behind-name": "IsBehindName", "obs-fold": "IsObsFold", "around-value": "IsAroundValue",
    "within-value": "IsWithinValue", "value-lines": "IsValueLines", "before-first-name": "IsBeforeFirstName", "no-colon-next": "NoColonNext",
    "ignored-line": "IsIgnoredLine", "no-blank-left": "NoBlankLeft", "no-fold-left": "NoFoldLeft", "request-head": "IsRequestHead",
    "response-head": "IsResponseHead", "chunk-size": "IsChunkSize", "chunk-ext-name": "IsChunkExtName", "chunk-ext-val": "IsChunkExtVal",
    "chunk-ext": "IsChunkExt", "behind-size": "IsBehindSize", "chunk-line": "IsChunkLine", "quoted-pair": "IsQuotedPair",
    "quoted-string": "IsQuotedString", "field-name": "IsFieldName", "field-content": "IsFieldContent", "field-value": "IsFieldValue",
    "obs-text": "IsObsText", "field-vchar": "IsFieldVchar", "block-alone": "BlockAlone", "lies-nowhere": "LiesNowhere",
    "says_nothing": "SaysNothing", "delimiter": "IsDelimiter", "hexadecimal": "IsHexadecimal", "qdtext": "IsQdtext", "tchar": "IsTchar",
    "ignorable": "IsIgnorable", "Laps-refused": "LapsRefused", "Behind-line": "BehindLine", "Behind-blank": "BehindBlank",
    "Tail-read": "TailRead", "Reason-read": "ReasonRead", "Header-read": "HeaderRead",
}
WORDS = {"method": "IsMethod", "token": "IsToken", "quoted": "IsQuoted", "blank": "IsBlank", "text": "IsText", "inner": "IsInner"}
# Lemmas and names of imports that would meet a definition, each in its own file.
LOCAL = {
    "crates/agreement/specs/Kept.antt": {"fields_in": "fields_in_lem"},
    "crates/agreement/specs/Starts.antt": {"is_ascii": "is_ascii_lem"},
    "crates/agreement/specs/Fields.antt": {"no-blank-left": "no_blank_left", "no-fold-left": "no_fold_left"},
    "crates/onereading/specs/Ignored.antt": {"line_at": "line_read"},
}
# Fields of Settings, and of records over it, that Rules has too: a label says whose it is.
LABELS = set(
    "ascii_targets spaces_in_request_line spaces_in_status_line space_before_first_name spaces_after_name multiline_headers".split()
    + ["ignore_invalid_headers_in_requests", "ignore_invalid_headers_in_responses"]
)
# a lemma that would have its function's name
LEMMAS = ["lap-step", "behind-step", "gap-end", "next-line", "is-ignorable", "behind-code", "not-visible", "block-numbers", "request-numbers",
          "response-numbers", "version-known"]


def snake(name):
    return re.sub(r"(?<=[a-z0-9])[A-Z]", lambda m: "_" + m[0].lower(), name).replace("-", "_")


def files():
    found = []
    for crate in sorted(glob.glob("crates/*")):
        for part in ("specs", "proofs"):
            found += glob.glob(f"{crate}/{part}/**/*.antt", recursive=True)
    return sorted(found)


def sources():
    return sorted(glob.glob("crates/*/src/**/*.rt", recursive=True))


def of_a_function(path):
    return re.search(r"/proofs/[^/]+/", path)


def libraries(text):
    """The names that a file takes from a library."""
    names = set()
    for path, items, alias in USE.findall(text):
        steps = path.strip(".").split(".")
        if steps[0] == "Rattle" and len(steps) > 1 and os.path.isdir("crates/" + steps[1]):
            continue
        for item in (items or "{%s}" % steps[-1])[1:-1].split(","):
            names.add(item.split(" as ")[0].strip())
    return names


def table():
    taken, own = set(), set()
    for path in files():
        with open(path, encoding="utf-8") as f:
            text = QUIET.sub(" ", f.read())
        taken |= libraries(text)
        words = set(WORD.findall(text))
        if of_a_function(path):
            words = set(re.findall(r"(?m)^ *(?:abbrev )?([a-zA-Z][\w'-]*)(?: \{[^{}\n]*\})* :", text)) | set(re.findall(r"\b(?:let|λ) \(?([\w'-]+)", text))
            words = {w for w in words if not re.match(r"(invariant|decreases|returns|loop)\b", w)}
        own |= {w for w in words if OURS.fullmatch(w)}
    for path in sources():
        with open(path, encoding="utf-8") as f:
            own |= {w for m in CLAUSE.finditer(f.read()) for w in WORD.findall(m[0]) if OURS.fullmatch(w)}
    rows = {w: TYPES.get(w, snake(w)) for w in own - taken}
    rows.update(TYPES)
    rows.update({w: snake(w) + "_lem" for w in LEMMAS})
    return rows


def predicates(path, text, code):
    """Which of the words of one word each are predicates in this file: it declares them or takes them from a crate's specs."""
    found = set()
    for w in WORDS:
        declared = re.search(rf"(?m)^\s*(?:pub |abbrev )*(?:data |record )?{w} (?:\([^)]*\) )?: (?:List ℕ|ℕ)? ?→? ?Type 0|(?:data|record) {w} \(b : ℕ\) : Type 0|pub data {w} : List ℕ → Type 0", code)
        taken = any(re.search(rf"(?<![\w'.-]){w}(?![\w'-])", items) and re.search(r"\.specs\.(Grammar|Fields|Message)\.?$", p) for p, items, _ in USE.findall(code))
        if declared or taken:
            found.add(w)
    return found


class Speller:
    def __init__(self, rows):
        self.rows, self.clashes, self.turned, self.local = rows, [], collections.Counter(), {}

    def words(self, text, skip, alone, made):
        """The text with each of our names turned; `alone` are the predicates of one word that this file has."""
        holes = [(m.start(), m.end()) for m in MADE.finditer(text)] if made else []

        def one(m):
            w, at = m[0], m.start()
            dotted = text[at - 1 : at] == "."
            if any(a < at < b and dotted for a, b in holes) or text[at - 1 : at] == "«":
                return w
            if w in WORDS:
                behind = text[m.end() : m.end() + 3]
                head = re.search(r"(?:bytes|fields|grammar|chunked)\.$", text[:at])
                field = re.match(r"\s*=(?!=)", text[m.end() :]) and not re.search(r"(?:^|\n)\s*$", text[:at]) or re.match(r" :(?! (?:List ℕ|ℕ) → Type 0)", text[m.end() :]) and not re.search(r"\(|\{", text[at - 1 : at])
                if head or w in alone and not dotted and not field:
                    return self.turn(w, WORDS[w])
                return w
            if w in self.local and not dotted:
                return self.turn(w, self.local[w])
            if w == "empty-lines" and (dotted and not text[:at].endswith("grammar.") or re.match(r"\s*[=:](?!.*Type 0)", text[m.end() :])):
                return self.turn(w, snake(w))
            bare, primes = re.fullmatch(r"(.*?)('*)", w).groups()
            for it, tail in ((w, ""), (bare, primes)):
                if it in self.rows and it not in skip:
                    return self.turn(it, self.rows[it] + tail)
            return w

        return WORD.sub(one, text)

    def turn(self, old, new):
        self.turned[old] += 1
        return new

    def antt(self, path, text):
        code = QUIET.sub(" ", text)
        skip, alone, made = libraries(code), predicates(path, text, code), bool(of_a_function(path))
        self.local = LOCAL.get(path, {})
        out, at = [], 0
        for m in QUIET.finditer(text):
            out += [self.words(text[at : m.start()], skip, alone, made), self.quiet(m[0], skip, alone)]
            at = m.end()
        out.append(self.words(text[at:], skip, alone, made))
        self.checked(path, code)
        self.local = {}
        return "".join(out)

    def quiet(self, text, skip=frozenset(), alone=frozenset()):
        return text if text.startswith('"') else SPAN.sub(lambda m: self.words(m[0], skip, alone, False), text)

    def rust(self, path, text):
        alone = predicates(path, text, text)
        text = CLAUSE.sub(lambda m: self.words(m[0], set(), alone, False), text)
        return re.sub(r"(?m)^\s*//.*$", lambda m: self.quiet(m[0]), text)

    def edit(self, path, text):
        lines = []
        for line in text.split("\n"):
            spec = re.match(r"(old|new): ", line)
            lines.append(self.words(line, set(), set(WORDS) & set(WORD.findall(line)) & self.alone_of(path, text), False) if spec else self.quiet(line))
        return "\n".join(lines)

    def alone_of(self, path, text):
        m = re.search(r"(?m)^file: (\S+)", text)
        target = m and os.path.join(os.path.dirname(os.path.dirname(path)), m[1])
        if path.startswith("grammar-edits"):
            target = m and ("crates/grammar/" + m[1] if m[1].startswith("specs") else m[1])
        if not target or not os.path.exists(target):
            return set()
        with open(target, encoding="utf-8") as f:
            it = f.read()
        return predicates(target, it, QUIET.sub(" ", it)) | {w for w in WORDS if re.search(rf"data {w}|{w} : |record {w}", it)}

    def checked(self, path, code):
        """Notes two names of the file that fall together."""
        new = collections.defaultdict(set)
        names = {m[0] for m in WORD.finditer(code) if code[m.start() - 1 : m.start()] != "."}
        skip = libraries(code)
        for w in names:
            new[self.local.get(w) or (self.rows[w] if w in self.rows and w not in skip else w)].add(w)
        self.clashes += [f"{path}: {sorted(olds)} fall together as {n}" for n, olds in sorted(new.items()) if len(olds) > 1 and n not in LABELS]


def main():
    rows = table()
    it = Speller(rows)
    kinds = [(p, it.antt) for p in files()]
    kinds += [(p, it.rust) for p in sources()]
    kinds += [(p, it.edit) for p in sorted(glob.glob("crates/*/must-fail/*.edit") + glob.glob("grammar-edits/*.edit"))]
    kinds += [(p, lambda _, text: it.quiet(text)) for p in sorted(glob.glob("*.md") + glob.glob("docs/**/*.md", recursive=True))]
    written = []
    for path, how in kinds:
        with open(path, encoding="utf-8") as f:
            text = f.read()
        written.append((path, text, how(path, text)))
    if it.clashes:
        print("\n".join(it.clashes))
        return 1
    for path, old, new in written:
        if old != new:
            with open(path, "w", encoding="utf-8") as f:
                f.write(new)
    print(f"spell: {len(it.turned)} names, {sum(it.turned.values())} places, {sum(o != n for _, o, n in written)} files")
    return 0


if __name__ == "__main__":
    sys.exit(main())
