#!/usr/bin/env python3
"""Spells the repository's own definitions and lemmas as today's Rattle does: in snake case.

usage: tools/spell_names.py          at the top of the repository, once, after the toolchain's own port

A name that a text of specs/ or proofs/ declares and that is in camel case or has dashes gets plain
underscores: isDigit is is_digit, round-trip is round_trip. Types and modules begin with a capital
and stay, and so do functions of src/, exported names, strings, and the names of goals in a
function's proof. A lemma that would fall together with a definition gets _lem. Turned are the texts
themselves, the clauses of the sources, the must-fail edits, and the code spans of pages.

With --list it prints each old name and its new one, and writes nothing.
"""

import collections
import os
import re
import sys

NAME = r'[^\s(){}.;,@"«»\x60]+'
QUIET = re.compile(r'"(?:[^"\\\n]|\\.)*"|(?<![^\s(){}.;,@"«»])--[^\n]*|\{-.*?-\}', re.S)
DECLARED = re.compile(
    r"(?m)^ *(?:(?:pub|abbrev|unfoldable|data|record|where|let|module) +)*"
    r"((?:[^\s(){}.;,@\"«»:]+ +)+)(?:\{[^{}\n]*\} *)*:(?= |$)"
)
BOUND = re.compile(rf"(?:λ|[({{])\s*((?:{NAME} +)*{NAME}) *:|λ\s*((?:{NAME} ?)+)\.")
LENT = re.compile(r"(?m)^use (?!Rattle\.(?!std\b|core\b|io\b|os\b|libc\b))[^\s{]+\{([^}]*)\}")
# Lemmas that the toolchain's port has spelled as the definitions below them are to be.
LEMMAS = "is_digit frame_right letter_at string_bytes in_order goes_on walked_to written_as wrong_byte entry_read fields_read found_in".split()
# Names that no declaration shows: aliases of imports, and variables of patterns.
ALSO = """
bytesOfSigns notMade recordSize numberOfStamped placeOfStamped numberOfMoved placeOfMoved
writtenOfMoved numberOfInked placeOfInked writtenOfInked oneWhere numberOfAnswer placeOfAnswer
writtenOfAnswer numberOfFiled placeOfFiled writtenOfFiled wordEnds symbolIn noMark oneByte stepTo
typographicOf stringIn classedIn signsIn yearIn yearsIn tailIn computing-table back-again
no-trailing inside-other computing-pages is-part is-p m-other last-mark is-low is-high
computing-translation no-column no-more' found-wrong past-line in-blanks is-q c-small
b-small not-good' its-turn is-to is-next
""".split()
GOAL = re.compile(r"\s*(?:tie\.|\{M)")
SPAN = re.compile(r"\x60[^\x60\n]+\x60")
RUST = re.compile(r'//[^\n]*|b?"(?:\\.|[^"\\])*"|b?\'(?:\\.|[^\'\\\n])\'|[\w\']+(?:-[\w\']+)*|\s+|.', re.S)


def texts(*ends):
    for top in ("crates", "docs", "."):
        for folder, folders, names in os.walk(top):
            folders[:] = [] if top == "." else sorted(it for it in folders if it not in ("out", ".git"))
            for name in sorted(names):
                if name.endswith(ends):
                    yield os.path.normpath(os.path.join(folder, name))


def read(path):
    with open(path, encoding="utf-8") as f:
        return f.read()


def is_old(name):
    return name[0].islower() and (
        "-" in name.strip("-") or bool(re.search(r"[a-z0-9][A-Z]", name))
    ) and not re.search(r"[^\w'-]", name)


def in_snake_case(name):
    # Two words of the library are spelled anew, and so they are in the names of laws about them.
    name = re.sub(r"\bgetD\b", "get_or", name)
    name = re.sub(r"(?<=[a-z0-9])[A-Z]+(?![a-z])", lambda m: "_" + m[0].lower(), name)
    name = re.sub(r"(?<=[a-z0-9])[A-Z]", lambda m: "_" + m[0].lower(), name)
    return name.replace("-", "_")


def declared_in(text, is_proof):
    """The names that a text declares, and those of them that are a function's goals."""
    own, goals = set(), set()
    code = QUIET.sub(" ", text)
    for m in DECLARED.finditer(code):
        for name in m[1].split():
            if is_proof and GOAL.match(code[m.end():m.end() + 40]):
                goals.add(name)
            else:
                own.add(name)
    for m in BOUND.finditer(code):
        own.update((m[1] or m[2] or "").split())
    return own, goals


def main():
    own, lent, goals_of, words_of, lent_to = set(), set(), {}, {}, {}
    for path in texts(".antt"):
        text = read(path)
        names, goals = declared_in(text, path.endswith("/Proof.antt"))
        own.update(names)
        lent_to[path] = {it for items in LENT.findall(text) for it in re.findall(NAME, items)}
        lent.update(lent_to[path])
        goals_of[path] = goals
        words_of[path] = set(re.findall(NAME, QUIET.sub(" ", text)))
    table = {it: in_snake_case(it) for it in sorted(own) if is_old(it)}

    table.update({it: in_snake_case(it) for it in ALSO if any(it in words for words in words_of.values()) or "-" not in it})
    table.update(noDigit="without_digit", noGap="without_gap")

    # Names that fall together in a file: a lemma gives way to a definition.
    met = collections.defaultdict(set)
    for old, new in table.items():
        met[new].add(old)
    for new, olds in sorted(met.items()):
        rivals = sorted(olds | ({new} if new in own or new in lent else set()))
        together = [it for it in words_of.values() if len(it.intersection(rivals)) > 1]
        if not together:
            continue
        lemmas = [it for it in rivals if "-" in it or it in LEMMAS]
        for it in lemmas:
            table[it] = new + "_lem"
            print(f"look: {', '.join(rivals)}: {it} is {table[it]}")
        if len(rivals) - len(lemmas) != 1:
            print(f"left: {', '.join(rivals)} fall together")

    if "--list" in sys.argv:
        for old, new in table.items():
            print(f"{old}\t{new}")
        return

    def turned(text, path=""):
        # The goals of a function's proof stay, and what a text has of the library.
        stay = goals_of.get(path, set()) | lent_to.get(path, set())
        in_proof = path.endswith("/Proof.antt")

        def word(m):
            it = m[0]
            after_dot = text[m.start() - 1:m.start()] == "."
            if it in stay or in_proof and after_dot and "-" in it:
                return it
            return table.get(it, it)

        return re.sub(NAME, word, text)

    def camel_only(text):
        return re.sub(r"[\w']+(?:-[\w']+)*", lambda m: table.get(m[0], m[0]) if "-" not in m[0] else m[0], text)

    def comment(text):
        return SPAN.sub(lambda m: turned(m[0]), camel_only(text))

    for path in texts(".antt"):
        text, out, at = read(path), [], 0
        for m in QUIET.finditer(text):
            # The text before is turned with what stands before it, since a word may follow a dot.
            out.append(turned(text[at:m.start()], path))
            out.append(m[0] if m[0][0] == '"' else comment(m[0]))
            at = m.end()
        out.append(turned(text[at:], path))
        write(path, text, "".join(out))
    for path in texts(".rt"):
        text = read(path)

        def piece(m):
            it = m[0]
            if it.startswith("//"):
                return comment(it)
            return it if it in LEMMAS else table.get(it, it)

        write(path, text, RUST.sub(piece, text))
    # Texts that the toolchain's port doesn't read: a name may also have been turned by it.
    known = set().union(own, table.values())

    def later(m):
        it = m[0]
        if it in table:
            return table[it]
        new = in_snake_case(it) if is_old(it) else it
        return new if new in known else it

    for path in texts(".edit"):
        text = read(path)
        lines = [
            re.sub(NAME, later, it) if it.startswith(("old:", "new:")) else SPAN.sub(lambda m: re.sub(NAME, later, m[0]), it)
            for it in text.split("\n")
        ]
        write(path, text, "\n".join(lines))
    for path in texts(".md"):
        text = read(path)
        write(path, text, SPAN.sub(lambda m: re.sub(NAME, later, m[0]), text))


def write(path, old, new):
    if new != old:
        with open(path, "w", encoding="utf-8") as f:
            f.write(new)


if __name__ == "__main__":
    main()
