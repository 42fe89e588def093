#!/usr/bin/env python3
"""Brings the repository's own definitions and lemmas to today's spelling, and the crate `bytes` to the name `wire`.

usage: python3 tools/respell.py      once, at the top, right after the toolchain's port.py

A definition, lemma, constructor or field in camel or dashed words is spelled in snake case; one that begins with a capital, in camel
case. Only names that the repository itself declares in specs/ and proofs/ are touched, and in a file that has a name of that spelling
from elsewhere (an import from the library), that one stays. Functions, types and fields of src/ keep their names. Words of comments are
respelled inside backticks alone. It prints the names that fall together.
"""
import collections
import glob
import os
import re
import subprocess
import sys

OLD, NEW = "bytes", "wire"
TOKEN = re.compile(r"[^\s(){}\[\];,.@\"λ`]+")


def snake(n):
    if n[0].isupper():
        return "".join(w[:1].upper() + w[1:] for w in n.split("-"))
    n = n.replace("AF1F", "Af1f")
    n = re.sub(r"([a-z0-9])([A-Z])", r"\1_\2", n)
    n = re.sub(r"([A-Z])([A-Z][a-z])", r"\1_\2", n)
    return n.replace("-", "_").lower()


def files():
    out = []
    for kind in ("specs", "proofs"):
        out += glob.glob(f"crates/*/{kind}/**/*.antt", recursive=True)
    return sorted(out)


def code_of(line):
    """The text of an antt line before its comment."""
    m = re.match(r"(.*?)(^|\s)--(\s|$)", line)
    return line if not m else line[: m.end(1)]


DECL = re.compile(r"^(\s*)(?:unfoldable\s+|abbrev\s+)*(?:pub\s+)?(?:data\s+|record\s+)?((?:[^\s:(){}=\[\];,.]+\s+)+?)(?:[({].*[)}]\s+)*:\s")


def declared():
    """name -> the modules that declare it."""
    out = collections.defaultdict(set)
    for p in files():
        for line in open(p, encoding="utf-8"):
            m = DECL.match(code_of(line) + " ")
            if m and not re.search(r":\s+(tie|goal)\.", line):
                for n in m.group(2).split():
                    out[n].add(p)
    return out


def imports(text):
    """(module, names) of the use lines of a file."""
    for m in re.finditer(r"^\s*(?:ghost )?(?:pub )?use ([^\s{;]+?)(?:\.\{([^}]*)\})?(?: as \S+)?;?$", text, re.M):
        names = [n.split(" as ")[-1].strip() for n in (m.group(2) or "").split(",")]
        orig = [n.split(" as ")[0].strip() for n in (m.group(2) or "").split(",")]
        yield m.group(1), names, orig


def main():
    if not os.path.isdir(f"crates/{OLD}"):
        sys.exit(f"respell: there is no crates/{OLD}: it has run")
    ours = declared()
    names = {}
    camel = {snake(n) for n in ours if "-" not in n and not n[0].isupper()}
    for n in ours:
        if re.search(r"[a-zA-Z0-9]-[a-zA-Z0-9]|[a-z0-9][A-Z]", n) and not re.search(r"[^\w\-'₀-₉]", n):
            new = snake(n)
            if "-" in n and not n[0].isupper() and new in camel:
                new += "_lem"
            if new != n and not (n[0].isupper() and "-" not in n):
                names[n] = new
    # a name that a file brings in from the library under the new spelling
    for p in files():
        text = open(p, encoding="utf-8").read()
        brought = set()
        for mod, got, orig in imports(text):
            if not mod.startswith("Rattle.") or mod.startswith("Rattle.std."):
                brought |= set(got)
        if brought:
            for n in set(TOKEN.findall("\n".join(code_of(x) for x in text.split("\n")))):
                if n in names and names[n] in brought and n not in brought:
                    print("brought in:", names[n], n, p, file=sys.stderr)
                    names[n] += "_lem"
    # names that fall together: two old ones, or one that stands already
    by_new = collections.defaultdict(set)
    for n, m in names.items():
        by_new[m].add(n)
    for m, olds in sorted(by_new.items()):
        if len(olds) > 1:
            print("together:", m, sorted(olds), file=sys.stderr)
        if m in ours:
            print("stands already:", m, sorted(olds), sorted(ours[m])[:3], file=sys.stderr)

    def turn_antt(text, here):
        theirs = set()
        for mod, got, orig in imports(text):
            if not mod.startswith("Rattle.") or mod.startswith("Rattle.std."):
                theirs |= set(got)
        def word(m):
            n = m.group(0)
            if n in theirs and here not in ours.get(n, ()):
                return n
            return names.get(n, n)
        out = []
        for line in text.split("\n"):
            code = code_of(line)
            if re.match(r"\s*use ", code):
                m = re.match(r"(\s*use )([^\s{]+)(.*)$", code)
                mod = m.group(2)
                if mod.startswith("Rattle.") and not mod.startswith("Rattle.std."):
                    code = TOKEN.sub(lambda t: names.get(t.group(0), t.group(0)), code)
            else:
                code = TOKEN.sub(word, code)
            rest = re.sub(r"`([^`]*)`", lambda t: "`" + TOKEN.sub(word, t.group(1)) + "`", line[len(code_of(line)):])
            out.append(code + rest)
        return "\n".join(out)

    def turn_rt(text):
        theirs = set()
        for mod, got, orig in imports(text):
            if not mod.startswith("Rattle.") or mod.startswith("Rattle.std."):
                theirs |= set(got)
        ident = re.compile(r"[A-Za-z_]\w*(?:-[A-Za-z_]\w*)*")
        def word(m):
            n = m.group(0)
            return n if n in theirs else names.get(n, n)
        out = []
        for line in text.split("\n"):
            m = re.match(r"^((?:[^\"/]|\"(?:[^\"\\]|\\.)*\"|/(?!/))*)(//.*)?$", line)
            if not m:
                out.append(line)
                continue
            code = m.group(1)
            if '"' not in code and "'" not in code.replace("'static", ""):
                code = ident.sub(word, code)
            else:
                code = re.sub(r"\"(?:[^\"\\]|\\.)*\"|" + ident.pattern, lambda t: t.group(0) if t.group(0).startswith('"') else word(t), code)
            rest = re.sub(r"`([^`]*)`", lambda t: "`" + ident.sub(word, t.group(1)) + "`", m.group(2) or "")
            out.append(code + rest)
        return "\n".join(out)

    def crate_paths(text):
        text = re.sub(rf"\bRattle\.{OLD}\.", f"Rattle.{NEW}.", text)
        return text

    for p in files():
        t = open(p, encoding="utf-8").read()
        u = crate_paths(turn_antt(t, p))
        if u != t:
            open(p, "w", encoding="utf-8").write(u)
    for p in sorted(glob.glob("crates/*/src/**/*.rt", recursive=True)):
        t = open(p, encoding="utf-8").read()
        u = crate_paths(turn_rt(t))
        if not p.startswith(f"crates/{OLD}/"):
            u = re.sub(rf"(?<![\w:.]){OLD}::", f"{NEW}::", u)
        if u != t:
            open(p, "w", encoding="utf-8").write(u)
    subprocess.run(["git", "mv", f"crates/{OLD}", f"crates/{NEW}"], check=True)
    lines = []
    for line in open("crates.txt", encoding="utf-8"):
        code, hash_, rest = line.partition("#")
        lines.append(re.sub(rf"\b{OLD}\b", NEW, code) + hash_ + rest)
    open("crates.txt", "w", encoding="utf-8").write("".join(lines))
    os.makedirs("tools", exist_ok=True)
    with open("tools/respelled.txt", "w", encoding="utf-8") as f:
        for n in sorted(names):
            f.write(f"{n} {names[n]}\n")
    for p in sorted(glob.glob("crates/*/src/**/*.rt", recursive=True)):
        text = open(p, encoding="utf-8").read()
        brought = {n for mod, got, orig in imports(text) for n in got}
        for m in re.finditer(r"\bfn (\w+)(?:<[^(]*>)?\(([^)]*)\)", text):
            for q in re.findall(r"(\w+):", m.group(2)):
                if q in brought:
                    print("hidden by a parameter:", q, "in", m.group(1), p, file=sys.stderr)
    print(f"respell: {len(names)} names")


main()
