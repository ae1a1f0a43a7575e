#!/usr/bin/env python3
"""Respells this repository's own definitions and lemmas as today's Rattle spells names: words in snake case.

usage: python3 tools/respell.py [FOLDER]     at the top of a checkout (or of FOLDER) on which port.py of the kit has run

It was run right after port.py. What it does:
- each word of a name that was written as evenParity becomes even_parity, in definitions, lemmas, clauses, comments, documents and must-fail edits;
- a lemma that would then have its definition's name gets _lem behind it;
- specs/Contracts.antt of a crate becomes specs/Promises.antt, since Rattle makes a module specs.contracts of its own;
- alu's definition `result` becomes `result_of`, the name of its function, since `result` in a clause is what a function returns,
  and the clauses of alu lose the brackets that port.py could not take off beside that name.
"""
import os
import re
import sys

NAME = r"[A-Za-z_][A-Za-z0-9_']*"
WORD = re.compile(r"(?<![A-Za-z0-9_'])" + NAME)
CAMEL = re.compile(r"^[a-z][A-Za-z0-9_']*[a-z0-9'][A-Z]")
# lemmas whose names fall together with those of the definitions that they are about
LEMMAS = ["written_out", "count_at", "digit_value", "fits_width", "is_one", "remainder_by", "nothing_known", "ones_below", "on_value", "with_part", "or_later", "too_long"]
# words of today's library or of the product, and not of this repository
KEPT = {"getD"}


def files(root, *ends):
    for folder, dirs, names in os.walk(root):
        dirs[:] = sorted(d for d in dirs if d not in ("out", "target", ".git", "build"))
        for name in sorted(names):
            if name.endswith(ends):
                yield os.path.join(folder, name)


def read(path):
    with open(path, encoding="utf-8") as f:
        return f.read()


def write(path, text):
    with open(path, "w", encoding="utf-8") as f:
        f.write(text)


def snake(word):
    return re.sub(r"[A-Z]+", lambda m: "_" + m[0].lower(), word)


def without_comments(text):
    return "\n".join("" if l.startswith("--") else l.split(" -- ")[0] for l in text.split("\n"))


def camel_words(root):
    """The words of the repository's own names: those that stand in its specs and proofs."""
    words = set()
    for path in files(os.path.join(root, "crates"), ".antt"):
        words |= {w for w in WORD.findall(without_comments(read(path))) if CAMEL.match(w)}
    # the names under which a source file brings definitions in
    for path in files(os.path.join(root, "crates"), ".rt"):
        words |= {w for line in re.findall(r"ghost use [^;]*;", read(path)) for w in WORD.findall(line) if CAMEL.match(w)}
    return words - KEPT


def lemmas(root):
    for path in files(os.path.join(root, "crates"), ".antt"):
        text = old = read(path)
        if "/proofs/" in path:
            for name in LEMMAS:
                text = re.sub(r"(?<![A-Za-z0-9_'.-])" + name + r"(?![A-Za-z0-9_'-])(?!\.)", name + "_lem", text)
            text = re.sub(r"(?<![A-Za-z0-9_'.-])own_bits(?![A-Za-z0-9_'-])", "own_bits_of", text)
        if text != old:
            write(path, text)


def names(root, words):
    def turn(m):
        return snake(m[0]) if m[0] in words else m[0]

    def code(text):
        # strings of the source keep their text
        return "".join(part if part.startswith('"') else WORD.sub(turn, part) for part in re.split(r'("(?:[^"\\\n]|\\.)*")', text))

    for path in files(os.path.join(root, "crates"), ".antt", ".rt", ".edit"):
        old = read(path)
        text = code(old) if path.endswith(".rt") else WORD.sub(turn, old)
        text = text.replace("yields-getD", "yields-get_or")
        if text != old:
            write(path, text)
    pages = [p for p in files(root, ".md") if "/landed" not in p and "PORT" not in p]
    for path in pages:
        old = read(path)
        text = re.sub(r"`[^`\n]*`", lambda m: WORD.sub(turn, m[0]), old)
        if text != old:
            write(path, text)


def contracts(root):
    crates = os.path.join(root, "crates")
    moved = set()
    for crate in sorted(os.listdir(crates)):
        path = os.path.join(crates, crate, "specs", "Contracts.antt")
        if os.path.exists(path):
            os.rename(path, os.path.join(crates, crate, "specs", "Promises.antt"))
            moved.add(crate)
    for path in files(crates, ".antt", ".rt", ".edit"):
        text = old = read(path)
        crate = os.path.relpath(path, crates).split(os.sep)[0]
        for c in moved:
            text = re.sub(r"Rattle\." + c + r"\.specs\.Contracts(?![A-Za-z0-9_])", f"Rattle.{c}.specs.Promises", text)
        if crate in moved:
            if path.endswith("specs/Lib.antt"):
                text = re.sub(r"(?m)^(pub )?mod Contracts$", r"\1mod Promises", text)
            text = text.replace("specs/Contracts.antt", "specs/Promises.antt")
        if text != old:
            write(path, text)


def results(root):
    """alu's `result`."""
    for path in files(os.path.join(root, "crates"), ".antt", ".rt", ".edit"):
        text = old = read(path)
        in_alu = "/crates/alu/" in path
        from_alu = re.search(r"Rattle\.alu\.specs\.Arithmetic\.\{[^}]*(?<![A-Za-z0-9_'-])result(?![A-Za-z0-9_'-])", text)
        word = re.compile(r"(?<![A-Za-z0-9_'.-])result(?![A-Za-z0-9_'-])")
        if path.endswith(".antt") and (from_alu or path.endswith("alu/specs/Arithmetic.antt")):
            text = "\n".join(l if l.startswith("--") else word.sub("result_of", l) for l in text.split("\n"))
        elif path.endswith(".rt") and (from_alu or in_alu):
            def use(m):
                return word.sub("result_of", m[0])

            text = re.sub(r"ghost use Rattle\.alu\.specs\.Arithmetic\.\{[^}]*\}", use, text)
            text = re.sub(r"ensures\* \{ λ (\w+)\. ⌜ \1 ≡ (.*) ⌝ \}", lambda m: "ensures { result ≡ " + word.sub("result_of", m[2]) + " }", text)
        elif path.endswith(".edit") and in_alu:
            text = "\n".join(word.sub("result_of", l) if re.match(r"(old|new): .*result (Add|Sub|And|Or|Xor) ", l) else l for l in text.split("\n"))
        text = re.sub(r"Rattle\.alu\.specs\.Arithmetic\.result(?![A-Za-z0-9_'.-])", "Rattle.alu.specs.Arithmetic.result_of", text)
        if text != old:
            write(path, text)


def own_at(root):
    """port.py takes sentence_block's ownAt for a name of the library."""
    path = os.path.join(root, "crates", "sentence_block", "specs", "Promises.antt")
    write(path, re.sub(r"\bfield_own\b", "own_at", read(path)))


def main():
    root = sys.argv[1] if len(sys.argv) > 1 else "."
    lemmas(root)
    words = camel_words(root)
    names(root, words)
    contracts(root)
    results(root)
    own_at(root)
    print(f"respell: {len(words)} words")


if __name__ == "__main__":
    main()
