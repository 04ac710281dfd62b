#!/usr/bin/env python3
"""Parts modules of specs/ in two: definitions stay, and lemmas move to a module of the same name in proofs/, with their statements unchanged.

usage: python3 tools/part.py CRATE/MODULE ..      at the top of the repository

A must-fail edit of a definition counts only where no lemma that rests on another stands in specs/ above it. Imports, ghost imports and edits
follow. It goes by text, so rt check decides. A definition inside a module with parameters of its own is cited with these in the lemmas.
"""

import glob
import os
import re
import sys

HEAD = re.compile(r"^(?:pub |abbrev |unfoldable |private )*(data |record |ruleset )?([^\s(){}:]+)(?=[\s({].*:| :|$)")


class Block:
    """A declaration with the comments above it, or a module with what is in it."""

    def __init__(self, lines, header=None, inner=None):
        self.lines, self.header, self.inner = lines, header, inner
        self.name, self.kind, self.public = None, None, False


def indent(line):
    return len(line) - len(line.lstrip(" "))


def blocks(lines, depth):
    """The blocks of these lines, of which each begins at this depth."""
    out, notes, at = [], [], 0
    while at < len(lines):
        line = lines[at]
        if not line.strip() or line.strip().startswith("--"):
            notes.append(line)
            at += 1
            continue
        end = at + 1
        if line.strip().startswith("module "):
            while end < len(lines) and (not lines[end].strip() or indent(lines[end]) > depth):
                end += 1
            while not lines[end - 1].strip():
                end -= 1
            first = at
            while not lines[first].rstrip().endswith(" where"):
                first += 1
            it = Block(notes, "\n".join(lines[at : first + 1]), blocks(lines[first + 1 : end], depth + 2))
        else:
            bare = line.strip()
            words = re.match(r"((?:pub |abbrev |unfoldable )*)(data |record |ruleset )?((?:pub )?)([^\s(){}:]+)", bare)
            if not words:
                sys.exit(f"part: cannot read the line {line}")
            name = words[4]
            while end < len(lines):
                nxt = lines[end]
                if not nxt.strip():
                    look = end
                    while look < len(lines) and not lines[look].strip():
                        look += 1
                    if look < len(lines) and indent(lines[look]) > depth:
                        end = look
                        continue
                    break
                if indent(nxt) > depth or nxt.strip()[0] in "})]" or re.match(rf"{re.escape(name)}(?=[\s({{]|$)", nxt.strip()) or nxt.strip().startswith("unfolding "):
                    end += 1
                    continue
                break
            it = Block(notes + lines[at:end])
            it.name, it.public = name, "pub " in words[1] or "pub " in words[3]
            it.kind = "definition" if words[2] in ("data ", "record ") or re.search(r"abbrev |unfoldable ", words[1]) else "lemma"
        out.append(it)
        notes, at = [], end
    if any(n.strip() for n in notes):
        out.append(Block(notes))
    return out


def flat(found):
    for it in found:
        if it.inner is not None:
            yield from flat(it.inner)
        elif it.name:
            yield it


def modules(found):
    for it in found:
        if it.inner is not None:
            yield it
            yield from modules(it.inner)


def uses(text, name):
    return re.search(rf"(?<![^\s(){{}};,.]){re.escape(name)}(?![^\s(){{}};,.])", text)


def written(found, wanted):
    """The lines of the wanted blocks, with the headers of the modules that they stand in."""
    out = []
    for it in found:
        if it.inner is not None:
            inner = written(it.inner, wanted)
            if inner:
                while inner and not inner[0].strip():
                    inner = inner[1:]
                out += it.lines + [it.header] + inner
        elif it.name in wanted:
            out += it.lines
    return out


def explicit(header):
    """The parameters of a module that its definitions are given outside it."""
    text, depth, group, out = header, 0, "", []
    for c in text:
        if c in "({":
            depth += 1
            if depth == 1:
                kind, group = c, ""
                continue
        if c in ")}":
            depth -= 1
            if depth == 0 and kind == "(":
                out += group.split(" :")[0].split()
        group += c
    return out


def applied(found, stay, outer=()):
    """In lemmas, each definition of a module with parameters, given these."""
    for it in found:
        if it.inner is None:
            continue
        here = tuple(outer) + tuple(explicit(it.header))
        mine = [b.name for b in it.inner if b.inner is None and b.name in stay]
        if here and mine:
            given = lambda l, n: re.sub(rf"(?<![^\s(){{}};,]){re.escape(n)}(?![^\s(){{}};,.])", f"({n} {' '.join(here)})", l)
            for n in mine:
                for b in flat(it.inner):
                    if b.name not in stay:
                        b.lines = [l if l.strip().startswith("--") else given(l, n) for l in b.lines]
                for b in modules(it.inner):
                    b.header = given(b.header, n)
        applied(it.inner, stay, here)


def antt():
    return sorted(f for part in ("specs", "proofs") for f in glob.glob(f"crates/*/{part}/**/*.antt", recursive=True))


def trimmed(text):
    """Without imports that nothing uses."""
    body = "\n".join(l for l in text.split("\n") if not re.match(r"(pub )?use ", l))
    out = []
    for l in text.split("\n"):
        m = re.match(r"use (\S+?)\.\{(.*)\}$", l)
        if m:
            keep = [i for i in m[2].split(", ") if uses(body, i.split(" as ")[-1].strip()) or "◌" in i and i.replace("◌", "").strip() in body]
            if not keep:
                continue
            l = f"use {m[1]}.{{{', '.join(keep)}}}"
        m = re.match(r"use (\S+) as (\S+)$", l)
        if m and not re.search(rf"(?<![^\s(){{}};,]){re.escape(m[2])}\.", body):
            continue
        out.append(l)
    return "\n".join(out)


def part(crate, module):
    path = f"crates/{crate}/specs/{module}.antt"
    with open(path, encoding="utf-8") as f:
        lines = f.read().rstrip("\n").split("\n")
    top = next(i for i, l in enumerate(lines) if l.strip() and not l.startswith("--"))
    last = max([i for i, l in enumerate(lines) if re.match(r"(pub )?use ", l)], default=top - 1)
    head, imports, body = lines[:top], lines[top : last + 1], lines[last + 1 :]
    found = blocks(body, 0)
    every = list(flat(found))
    lemmas = {b.name for b in every if b.kind == "lemma"}
    stay = {b.name for b in every if b.kind == "definition"}
    text = {b.name: "\n".join(l for l in b.lines if not l.strip().startswith("--")) for b in every}
    # a label or a constructor may be called as a lemma is
    body = {n: re.sub(r"(?m)^ +(?:pub )?[^\s(){}:]+ :", "", t) if re.match(r"\s*(?:pub )?(?:data|record) ", t) else t for n, t in text.items()}
    # a definition of the lemmas' own goes with them, and so does one that cites a lemma
    grew = True
    while grew:
        grew = False
        for b in every:
            if b.name not in stay:
                continue
            cited = any(uses(text[n], b.name) for n in stay if n != b.name)
            if any(uses(body[b.name], l) for l in lemmas) or not b.public and not cited:
                stay.discard(b.name)
                lemmas.add(b.name)
                grew = True
    for b in every:
        if b.name in stay and not b.public and any(uses(text[n], b.name) for n in lemmas):
            b.lines = [re.sub(r"^(\s*)(abbrev|unfoldable|data|record) ", lambda m: f"{m[1]}{m[2]} pub " if m[2] in ("abbrev", "unfoldable") else f"{m[1]}pub {m[2]} ", l) if not l.strip().startswith("--") else l for l in b.lines]
    public = {b.name for b in every if b.public}
    specs = head + imports + written(found, stay)
    applied(found, stay)
    rest = written(found, lemmas)
    made = set()
    for b in every:
        if b.name in stay and b.kind == "definition":
            made.add(b.name)
            if re.match(r"\s*(?:pub )?data ", text[b.name]):
                made |= set(re.findall(r"(?m)^ +([^\s(){}:]+) :", text[b.name]))
    if stay:
        own = [f"use Rattle.{crate}.specs.{module}.{{{', '.join(sorted(made))}}}"]
    else:
        own = []
    proofs = head + imports + own + rest
    os.makedirs(f"crates/{crate}/proofs", exist_ok=True)
    to = f"crates/{crate}/proofs/{module}.antt"
    if os.path.exists(to):
        sys.exit(f"part: {to} is there already")
    with open(to, "w", encoding="utf-8") as f:
        f.write(re.sub(r"\n{3,}", "\n\n", trimmed("\n".join(proofs))).rstrip("\n") + "\n")
    if stay:
        with open(path, "w", encoding="utf-8") as f:
            f.write(re.sub(r"\n{3,}", "\n\n", trimmed("\n".join(specs))).rstrip("\n") + "\n")
    else:
        os.remove(path)
    listed(crate, module, bool(stay))
    return lemmas & public, lemmas


def listed(crate, module, stays):
    lib = f"crates/{crate}/proofs/Lib.antt"
    have = open(lib, encoding="utf-8").read() if os.path.exists(lib) else ""
    with open(lib, "w", encoding="utf-8") as f:
        f.write(have + f"pub mod {module}\n")
    if not stays:
        lib = f"crates/{crate}/specs/Lib.antt"
        with open(lib, encoding="utf-8") as f:
            text = f.read()
        with open(lib, "w", encoding="utf-8") as f:
            f.write(text.replace(f"pub mod {module}\n", ""))


def follow(moved):
    """Imports of what has moved."""
    for path in antt() + sorted(glob.glob("crates/*/src/**/*.rt", recursive=True)):
        rust = path.endswith(".rt")
        with open(path, encoding="utf-8") as f:
            text = f.read()
        lines, extra = [], []
        for l in text.split("\n"):
            m = re.match(r"((?:ghost |pub )?use )Rattle\.(\w+)\.specs\.(\w+)(?:\.\{(.*)\}| as (\S+?))?(;?)$", l)
            gone = m and moved.get((m[2], m[3]))
            if not gone:
                lines.append(l)
                continue
            where = lambda p: f"{m[1]}Rattle.{m[2]}.{p}.{m[3]}"
            if m[4]:
                items = m[4].split(", ")
                to = [i for i in items if i.split(" as ")[0].strip() in gone]
                keep = [i for i in items if i not in to]
                if rust and to:
                    print(f"part: {path} cites {to} in a clause")
                if keep:
                    lines.append(f"{where('specs')}.{{{', '.join(keep)}}}{m[6]}")
                if to:
                    lines.append(f"{where('proofs')}.{{{', '.join(to)}}}{m[6]}")
            else:
                alias = m[5] or m[3]
                cited = set(re.findall(rf"(?<![^\s(){{}};,]){re.escape(alias)}\.([^\s(){{}};,.]+)", "\n".join(x for x in text.split("\n") if not re.match(r"(ghost |pub )?use ", x))))
                if cited - gone or not cited:
                    lines.append(l)
                if cited & gone:
                    new = alias if not cited - gone else alias + "_laws"
                    lines.append(f"{where('proofs')} as {new}")
                    extra += [(alias, n, new) for n in cited & gone]
        out = "\n".join(lines)
        for alias, n, new in extra:
            out = re.sub(rf"(?<![^\s(){{}};,]){re.escape(alias)}\.{re.escape(n)}(?![^\s(){{}};,.])", f"{new}.{n}", out)
        if out != text:
            with open(path, "w", encoding="utf-8") as f:
                f.write(out)


def edits():
    """Must-fail edits whose text has moved."""
    for path in sorted(glob.glob("crates/*/must-fail/*.edit")):
        with open(path, encoding="utf-8") as f:
            text = f.read()
        crate = os.path.dirname(os.path.dirname(path))
        m = re.search(r"(?m)^file: specs/(\S+)$", text)
        old = re.search(r"(?m)^old: (.*)$", text)
        if not m or not os.path.exists(f"{crate}/proofs/{m[1]}"):
            continue
        specs = f"{crate}/specs/{m[1]}"
        stands = os.path.exists(specs) and open(specs, encoding="utf-8").read().count(old[1])
        there = open(f"{crate}/proofs/{m[1]}", encoding="utf-8").read().count(old[1])
        if stands != 1 and there == 1:
            with open(path, "w", encoding="utf-8") as f:
                f.write(text.replace(f"file: specs/{m[1]}", f"file: proofs/{m[1]}"))
        elif stands != 1:
            print(f"part: {path}: its text stands {stands} times in specs/, {there} in proofs/")


def has_lemmas(path):
    with open(path, encoding="utf-8") as f:
        lines = f.read().split("\n")
    body = [l for l in lines if not re.match(r"(pub )?use |pub mod ", l)]
    return any(b.kind == "lemma" for b in flat(blocks(body, 0)))


def main(argv):
    moved = {}
    if argv and all("/" not in it for it in argv):
        # all modules of these crates that have lemmas
        argv = [f"{c}/{os.path.basename(p)[:-5]}" for c in argv for p in sorted(glob.glob(f"crates/{c}/specs/*.antt")) if os.path.basename(p) != "Lib.antt" and has_lemmas(p)]
    for it in argv:
        crate, module = it.split("/")
        public, every = part(crate, module)
        moved[crate, module] = public
        print(f"part: {crate}/{module}: {', '.join(sorted(public))}")
    follow(moved)
    edits()


if __name__ == "__main__":
    main(sys.argv[1:])
