#!/usr/bin/env python3
"""Spells the names that this repository's specs/ and proofs/ declare as the library spells its own: words in snake case, with no dash and no capital inside.

usage: python3 tools/respell.py        at the top of the repository, once, straight after port.py

A name turns wherever it stands as a whole word: in .antt files but for quoted text, in the clauses and ghost items of .rt files, in comments, in the code
spans of the papers, and in must-fail edits. A type keeps its capital and its dash. Where two names would fall together, the one that was written with a
capital inside keeps the plain word, and the others, which are lemmas, get the ending _lem. A name that a file imports from the library stays in that file.
In a function's own proof a name with a dash turns only where the file imports it or declares it as a lemma of its own, since Rattle makes names with dashes.
"""
import collections
import os
import re

WORD = re.compile(r'[^\s(){}.;,@"«»⌜⌝\[\]|]+')
DECLARED = re.compile(r"^ *(?:(?:unfoldable|abbrev|pub|axiom|mutual) +)*([^\s:(){}⌜⌝,;.\"]+)(?: \{[^{}\n]*\})* *:(?= |$)")
OF_A_GOAL = re.compile(r":\s*(?:\{.*\}\s*→\s*)?(?:tie|statement|goal|given)\b|: \{M : Type 1\}")
QUIET = re.compile(r'"(?:[^"\\\n]|\\.)*"|(?<![^\s(){}.;,@"«»])--[^\n]*', re.S)
USE = re.compile(r"\buse +([^\s;{]+)\.\{([^}]*)\}")
CLAUSE = re.compile(r"(?:\b(?:requires|ensures)\s*\*?\s*(?:\w+\s*)?|\bghost\s*(?:\w+\s*:\s*)?)\{")
GHOST_USE = re.compile(r"ghost\s+use\b[^;]*;")
RUST = re.compile(r"""//[^\n]*|b?"(?:\\.|[^"\\])*"|b?'(?:\\.|[^'\\])'|\w+|\s+|.""", re.S)
SPAN = re.compile(r"(`+)(?:[^\n]|\n(?!\s*\n))*?\1")
FENCE = re.compile(r"^ *```[^\n]*\n.*?^ *``` *$", re.S | re.M)


def below(root, ending):
    for folder, dirs, names in os.walk(root):
        dirs[:] = sorted(d for d in dirs if d not in ("out", "target", ".git"))
        for name in sorted(names):
            if name.endswith(ending):
                yield os.path.join(folder, name)


def text_of(path):
    with open(path, encoding="utf-8") as f:
        return f.read()


def of_a_function(path):
    return re.search(r"/proofs/[^/]+/", path) is not None


def declared():
    """Each declared name, with the files that declare it."""
    found = collections.defaultdict(set)
    for path in below("crates", ".antt"):
        for line in text_of(path).split("\n"):
            m = DECLARED.match(line)
            if m and not line.lstrip().startswith("--") and not (of_a_function(path) and OF_A_GOAL.search(line)):
                found[m[1]].add(path)
    return found


def snake(name):
    return re.sub(r"(?<=[a-z0-9])[A-Z]", lambda m: "_" + m[0].lower(), name).replace("-", "_")


def table_of(names):
    groups = collections.defaultdict(set)
    for name in names:
        if not name[:1].isupper() and re.fullmatch(r"[\w'-]+", name):
            groups[snake(name)].add(name)
    table = {}
    for new, olds in groups.items():
        plain = sorted(olds, key=lambda n: (not re.search("[a-z0-9][A-Z]", n), "-" in n, n))[0]
        for old in olds:
            to = new if old == plain else new + "_lem"
            if to != old:
                table[old] = to
    return table


def parts(pattern, text, inside, outside):
    out, at = [], 0
    for m in pattern.finditer(text):
        out += [outside(text[at : m.start()]), inside(m[0])]
        at = m.end()
    return "".join(out + [outside(text[at:])])


class Turner:
    def __init__(self, table, names):
        self.table, self.names = table, names
        self.crates = {c for c in os.listdir("crates")}

    def ours(self, path):
        steps = path.split(".")
        return steps[0] == "Rattle" and len(steps) > 1 and steps[1] in self.crates

    def scope(self, path, text):
        """The rows that hold in this file."""
        lent, brought = set(), set()
        for m in USE.finditer(text):
            words = {w for item in m[2].split(",") for w in item.split()[:1]}
            (brought if self.ours(m[1]) else lent).update(words)
        here = {n for n in self.table if path in self.names[n]}
        dashes = here | brought if of_a_function(path) else None
        inside = lambda n: re.search("[a-z0-9][A-Z]", n)
        stays = lambda n: not inside(n) and (n not in dashes if dashes is not None else path.endswith(".rt"))
        return {n: to for n, to in self.table.items() if (n not in lent or n in here) and not stays(n)}

    def code(self, text, rows):
        return WORD.sub(lambda m: rows.get(m[0], m[0]), text)

    def prose(self, text, rows):
        bare = lambda t: re.sub(r"[\w'-]+", lambda m: rows[m[0]] if m[0] in rows and re.search("[a-z0-9][A-Z]", m[0]) else m[0], t)
        spans = lambda t: re.sub(r"[\w'-]+", lambda m: rows.get(m[0], m[0]), t)
        return parts(SPAN, text, spans, bare)

    def antt(self, text, rows):
        return parts(QUIET, text, lambda t: t if t[0] == '"' else self.prose(t, rows), lambda t: self.code(t, rows))

    def rt(self, text, rows):
        out, at = [], 0
        while at < len(text):
            clause, use = CLAUSE.match(text, at), GHOST_USE.match(text, at)
            if clause:
                end, depth = clause.end(), 1
                while depth:
                    depth += {"{": 1, "}": -1}.get(text[end], 0)
                    end += 1
                out.append(clause[0] + self.antt(text[clause.end() : end], rows))
            elif use:
                end = use.end()
                out.append(self.antt(use[0], rows))
            else:
                m = RUST.match(text, at)
                end = m.end()
                out.append(self.prose(m[0], rows) if m[0][:2] == "//" else m[0])
            at = end
        return "".join(out)

    def edit(self, text, rows):
        kind, out = "", []
        for line in text.split("\n"):
            m = re.match(r"(file|old|new):(.*)", line, re.S)
            if m and m[1] == "file":
                kind = m[2].strip()
            if m and m[1] != "file":
                turned = self.antt(m[2], rows) if kind.endswith(".antt") else self.rt(m[2], rows) if m[2].count("{") == m[2].count("}") else m[2]
                line = m[1] + ":" + turned
            out.append(line)
        return "\n".join(out)

    def md(self, text, rows):
        name = re.compile(r"(?<![\w./'-])[\w'-]+(?![\w/'-]|\.\w)")
        turn = lambda t: name.sub(lambda m: rows.get(m[0], m[0]), t)
        return parts(FENCE, text, turn, lambda t: parts(SPAN, t, turn, lambda p: p))


def main():
    names = declared()
    turner = Turner(table_of(names), names)
    for ending, turn in ((".antt", turner.antt), (".rt", turner.rt), (".edit", turner.edit), (".md", turner.md)):
        for path in ["README.md", *below("docs", ".md")] if ending == ".md" else below("crates", ending):
            old = text_of(path)
            rows = turner.scope(path, old) if ending in (".antt", ".rt") else {n: to for n, to in turner.table.items() if n + "_lem" != to}
            new = turn(old, rows)
            met = {w for w in WORD.findall(QUIET.sub(" ", old))} if ending == ".antt" else set()
            for name, to in rows.items():
                if name in met and to in met:
                    print(f"look: {path}: {name} and {to} both stood there")
            if new != old:
                with open(path, "w", encoding="utf-8") as f:
                    f.write(new)
    for old, new in sorted(turner.table.items()):
        if new.endswith("_lem"):
            print(f"lemma: {old} is {new}")


main()
