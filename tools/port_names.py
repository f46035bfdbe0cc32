#!/usr/bin/env python3
"""Brings the repository's own names to the spelling of today's Rattle: definitions, laws and fields in snake case.

usage: python3 tools/port_names.py        at the top of a repository in which port.py has run, once

What it renames: each name in camel case that begins with a small letter, and each name with a dash, that specs/ or a file of lemmas right in
proofs/ declares. Two names that would fall together keep apart: the definition gets the name, the lemma gets `_lem` behind it. Functions of
src/, exported names, strings, inputs and outputs stay. Files: .antt, the clauses of .rt, must-fail edits, and the names in the documents.
"""
import glob
import os
import re
import sys

OWN = sorted(os.path.basename(p) for p in glob.glob("crates/*"))
HEAD = re.compile(r"^\s*(?:unfoldable |abbrev |opaque |private )*(?:pub )?(?:unfoldable |abbrev )?([^\s:(){}=|,;]+) (?::|\{[^=]*\} ?:|\(.*?\) ?:|(?:[({].*)?: )")
DATA = re.compile(r"^\s*(?:pub )?([^\s:(){}=|,;]+(?: [^\s:(){}=|,;]+)*) : ")
SKIP = ("--", "use ", "pub use", "mod ", "pub mod", "module", "let ", "elim", "in ", "[", "unfolding", "infix", "pub ruleset", "ruleset")
EDGE = " \t\n\r(){}[]⟨⟩;,.`\"⌜⌝"
# words of the older library that stand in edits, which port.py does not read, and what port.py made of them in the sources
WORDS = {
    "leb": ["nat_le"], "ltb": ["nat_lt"], "eqb": ["nat_eq"], "getD": ["slice_index", "slice_index_or", "get_or", "getD"], "_≡_": ["◌≡◌"],
    "_if_else_": ["◌if◌else◌"], "_orElse_": ["◌or_else◌"], "isNone": ["is_none"], "isSome": ["is_some"],
}


def snake(name):
    name = re.sub(r"([a-z0-9])([A-Z])", r"\1_\2", name.replace("-", "_"))
    return re.sub(r"([A-Z])([A-Z][a-z])", r"\1_\2", name).lower()


def files(pattern):
    return sorted(p for p in glob.glob(pattern, recursive=True) if "/out/" not in p)


def declared(path):
    """The names that a file declares, fields and cases among them."""
    for line in open(path, encoding="utf-8"):
        if line.lstrip().startswith(SKIP):
            continue
        m = HEAD.match(line) or DATA.match(line)
        if m:
            yield from m.group(1).split()
        m = re.match(r"^\s*(?:pub )?ruleset (\S+) =", line)
        if m:
            yield m.group(1)
    for line in open(path, encoding="utf-8"):
        m = re.match(r"^\s*(?:pub )?ruleset (\S+) =", line)
        if m:
            yield m.group(1)


def library(paths):
    """The names that own files take from the library."""
    found = set()
    for p in paths:
        text = open(p, encoding="utf-8").read()
        for m in re.finditer(r"use ([\w.·]+)\.\{([^}]*)\}", text):
            crate = re.match(r"Rattle\.(\w+)", m.group(1))
            if crate and crate.group(1) in OWN:
                continue
            found |= {n.split(" as ")[0].strip() for n in m.group(2).split(",")}
    return found


def split(text):
    """The text as runs of name characters and of others."""
    return re.findall(r"[^" + re.escape(EDGE) + r"]+|[" + re.escape(EDGE) + r"]+", text)


def renamed(text, names):
    return "".join(names.get(t, t) for t in split(text))


def comment(text, names):
    """In prose: names in camel case wherever they stand, others between backticks."""
    text = re.sub(r"(?<![\w'\-./])([a-z][a-z0-9]*(?:[A-Z][A-Za-z0-9]*)+)(?![\w'\-])", lambda m: names.get(m.group(1), m.group(1)), text)
    return re.sub(r"`[^`\n]*`", lambda m: renamed(m.group(0), names), text)


def antt(text, names):
    out = []
    for line in text.split("\n"):
        at = re.search(r"(^|\s)--(\s|$)", line)
        if at:
            at = at.start()
            out.append(renamed(line[:at], names) + comment(line[at:], names))
        else:
            out.append(renamed(line, names))
    return "\n".join(out)


def rt(text, names):
    out = []
    for line in text.split("\n"):
        if line.lstrip().startswith("//"):
            out.append(comment(line, names))
        elif line.lstrip().startswith("ghost use"):
            out.append(renamed(line, names))
        else:
            parts = re.split(r'("(?:[^"\\]|\\.)*")', line)
            out.append("".join(p if p.startswith('"') else "".join(names.get(t, t) if re.match(r"^[a-z][a-z0-9]*[A-Z]|^◌|^_\w+_", t) else t for t in split(p)) for p in parts))
    return "\n".join(out)


def respelled(body, names, source):
    """A line of an edit; a word of the older library becomes the one that stands in the edited file."""
    words = {}
    for w, forms in WORDS.items():
        standing = [f for f in forms if re.search(r"(?<![\w\-])" + re.escape(f) + r"(?![\w\-])", source)]
        if standing and not re.search(r"(?<![\w\-])" + re.escape(w) + r"(?![\w\-])", source):
            words[w] = standing[0]
    for w in split(body):
        if w not in names and re.match(r"^[a-z][a-z0-9]*[A-Z]", w) and re.search(r"(?<![\w\-])" + re.escape(snake(w)) + r"(?![\w\-])", source):
            words[w] = snake(w)
    body = re.sub(r"\((\w+(?: [\w]+)+) \.(\w+)\)", r"(\1).\2", body)
    body = re.sub(r"\(now \((\w+) \.(?:entry|exit)\)\)", r"\1.now", body)
    body = renamed(body, {**words, **names})
    body = re.sub(r"(?<=[\w')»]) \.(?=[\w«])", ".", body)
    body = re.sub(r"«(\w+)»", r"\1", body).replace("′", "'")
    body = re.sub(r"(?<=[ (])\(([\w']+(?:\.[\w«»']+)+)\)", r"\1", body)
    return body


def edit(text, names, crate):
    out, source = [], ""
    for line in text.split("\n"):
        m = re.match(r"^(file:) *(\S+)", line)
        if m:
            path = os.path.join(crate, m.group(2))
            source = open(path, encoding="utf-8").read() if os.path.exists(path) else ""
        m = re.match(r"^(old:|new:)(.*)$", line)
        out.append(m.group(1) + respelled(m.group(2), names, source) if m else comment(line, names) if line.startswith("#") else line)
    return "\n".join(out)


def main():
    specs = files("crates/*/specs/**/*.antt")
    lemmas = files("crates/*/proofs/*.antt")
    walks = [p for p in files("crates/*/proofs/**/*.antt") if p not in lemmas]
    sources = files("crates/*/src/**/*.rt")
    lib = library(specs + lemmas + walks + sources)
    of_specs = {n for p in specs for n in declared(p)}
    of_lemmas = {n for p in lemmas for n in declared(p)}
    names = {}
    keep = {n for n in of_specs | of_lemmas if snake(n) == n or not re.match(r"^[a-z]", n)}

    def wanted(n):
        return n not in lib and re.match(r"^[a-z]", n) and (re.search(r"[A-Z]", n) or "-" in n) and re.match(r"^[\w'\-]+$", n)

    used = set(keep) | lib
    for group in (of_specs, of_lemmas):
        for n in sorted(group, key=lambda n: ("-" in n, n)):
            if not wanted(n) or n in names:
                continue
            to = snake(n)
            if group is of_specs and to in of_lemmas and to not in of_specs and to not in lib:
                names[to] = to + "_lem"  # a lemma that port.py gave a definition's name
                used.add(to + "_lem")
            else:
                while to in used:
                    to += "_lem"
            names[n] = to
            used.add(to)
    # infix names: the words between the places
    infix = {}
    for n in of_specs | of_lemmas:
        if n.startswith("◌") and n.endswith("◌"):
            for w in n.strip("◌").split("◌"):
                if re.match(r"^[a-z]+[A-Z]", w):
                    infix[w] = snake(w)
            if snake(n) != n and re.search("[a-z][A-Z]", n):
                infix[n] = snake(n)
    names.update(infix)
    # variables in camel case
    for p in specs + lemmas + walks:
        for t in split(open(p, encoding="utf-8").read()):
            if re.match(r"^[a-z][a-z0-9]*([A-Z][a-z0-9]*)+'?$", t) and t not in names and t not in lib:
                names[t] = snake(t)
    if "--list" in sys.argv:
        for a, b in sorted(names.items()):
            print(a, b, "" if b == snake(a) else "APART")
        return
    for p in specs + lemmas + walks:
        text = open(p, encoding="utf-8").read()
        new = antt(text, names)
        if new != text:
            open(p, "w", encoding="utf-8").write(new)
    for p in sources:
        text = open(p, encoding="utf-8").read()
        new = rt(text, names)
        if new != text:
            open(p, "w", encoding="utf-8").write(new)
    for p in files("crates/*/must-fail/**/*.edit"):
        text = open(p, encoding="utf-8").read()
        new = edit(text, names, p.split("/must-fail/")[0])
        if new != text:
            open(p, "w", encoding="utf-8").write(new)
    for p in ["README.md"] + [p for p in files("docs/*.md") if not p.endswith("PORT.md")]:
        text = open(p, encoding="utf-8").read()
        new = comment(text, names)
        if new != text:
            open(p, "w", encoding="utf-8").write(new)
    with open("docs/port-names.txt", "w", encoding="utf-8") as f:
        f.write("".join(f"{a} {b}\n" for a, b in sorted(names.items())))
    print(f"port_names: {len(names)} names")


main()
