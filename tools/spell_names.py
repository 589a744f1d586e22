#!/usr/bin/env python3
"""Spells the names that this repository's own .antt files declare as Rattle does: values and lemmas in snake case, with plain underscores for dashes.

usage: spell_names.py [--check]      at the top of the repository, after the kit's own scripts

What a proof file of one function (Proof.antt, Answers.antt, Invariants.antt) declares keeps its name, unless a lemma is called so.
In a comment a word turns where it is in camel case, or between backticks. In .rt files only words in camel case turn: Rust's names are in snake case already.
"""

import os
import re
import sys

USE = re.compile(r"(?m)^(?:ghost )?(?:pub )?use ([^\s;{]+)\.\{([^}]*)\}")
GHOST = re.compile(r"ghost use [^\s;{]+\.\{([^}]*)\};")
GOALS = ("Proof.antt", "Answers.antt", "Invariants.antt")
WORD = re.compile(r'[^\s(){}.;,@"«»]+')
CODE_COMMENT = re.compile(r'"(?:[^"\\\n]|\\.)*"|(?<![^\s(){}.;,@"«»])--[^\n]*')
KEYWORDS = ("pub", "abbrev", "unfoldable")
NOT_A_NAME = re.compile(r"^(let|λ|in|elim|where|use|mod|if|do|\||=|→)$")
# Names that a parameter would hide under the plain rule, and one that is a tactic's today.
BY_HAND = {"textUsed": "text_used_of", "cardsUsed": "cards_used_of", "first_of": "first_set_of", "directivesDE": "directives_d_e", "orphansABA": "orphans_a_b_a", "orphans_aBA": "orphans_a_b_a", "isSubtype": "is_subtype_of"}
# Words of the language: tactics and keywords.
RESERVED = set("search simp rw cc grind omega assumption ground first_of hlevel subst data record deriving module where use mod pub package open as unfold unfolding ruleset mutual infix elim let in do".split())


def is_goals(path):
    """Whether the file has the answers of one function's proof."""
    return os.path.basename(path) in GOALS and f"{os.sep}proofs{os.sep}" in path


def in_snake_case(name):
    """The name with its words joined by underscores; a name that begins with a capital keeps its capitals."""
    if name[0].isupper():
        return name.replace("-", "_")
    words = re.sub(r"(?<=[a-z0-9])[A-Z]", lambda m: "_" + m[0].lower(), name)
    return words.replace("-", "_")


def declared(text):
    """The names that stand before a type on a line of their own."""
    for line in text.split("\n"):
        rest = line.strip().lstrip("(")
        while rest.split(" ", 1)[0] in KEYWORDS:
            rest = rest.split(" ", 1)[1]
        head = re.match(r"((?:[^\s(){}.;,@\"«»:]+ )+)(?:\{[^{}\n]*\} |\([^()\n]*\) )*:(?: |$)", rest)
        if not head:
            continue
        names = head[1].split()
        if any(NOT_A_NAME.match(n) for n in names) or names[0] in ("data", "record"):
            continue
        yield from names


def files(root):
    for folder, dirs, names in os.walk(os.path.join(root, "crates")):
        dirs[:] = sorted(d for d in dirs if d not in ("out", "target", "data"))
        for name in sorted(names):
            if name.endswith((".antt", ".rt")):
                yield os.path.join(folder, name)


def table(root):
    own = set()
    for path in files(root):
        if path.endswith(".antt") and not is_goals(path):
            with open(path, encoding="utf-8") as f:
                own.update(declared(f.read()))
    wanted = {}
    for name in sorted(own):
        if re.match(r"[^\W\d]", name) and re.fullmatch(r"[\w'₀-₉-]+", name):
            wanted.setdefault(BY_HAND.get(name, in_snake_case(name)), []).append(name)
    turns = {}
    for new, olds in wanted.items():
        # a definition, in camel case before, keeps the plain name, and a lemma that would be called like it gets an ending
        first = [n for n in olds if is_camel(n) and n != new] or [n for n in olds if n == new] or olds[:1]
        if new in RESERVED:
            first = [n for n in olds if n == new]
        for n in olds:
            turned = new if n in first else new + "_lem"
            if turned != n:
                turns[n] = turned
        if len(first) > 1 or len(olds) - len(first) > 1:
            print(f"meet: {' '.join(olds)}")
    return own, turns


def lent(text, crates):
    """The names that a file imports from a library, which keep their spelling there."""
    for use in USE.finditer(text):
        path = use[1].split(".")
        if path[0] != "Rattle" or path[1] not in crates:
            yield from (it.strip().split(" as ")[0] for it in use[2].split(",") if it.strip())


def is_camel(name):
    return "-" not in name


def turned_comment(text, turns):
    text = re.sub(r"(?<![\w-])[A-Za-z]\w*(?![\w-])", lambda m: turns[m[0]] if m[0] in turns and is_camel(m[0]) and re.search("[a-z][A-Z]", m[0]) else m[0], text)
    return re.sub(r"`[^`\n]*`", lambda m: WORD.sub(lambda w: "`".join(turns.get(p, p) for p in w[0].split("`")), m[0]), text)


def turned_antt(text, turns, goals):
    out, last = [], 0

    def word(m):
        if in_a_path(m):
            return m[0]
        if goals and "-" in m[0] and text_before(m).endswith((".",)):
            head = re.search(r"([\w-]+)\.$", text_before(m))
            if head and head[1] in ("tie", "goal", "reads", "lts", "c"):
                return m[0]
        return turns.get(m[0], m[0])

    def in_a_path(m):
        """Whether the word is a step of a module's path, which may be a Rust function's name."""
        return re.search(r"\bRattle\.[\w.+-]*$", m.string[max(0, m.start() - 120) : m.start()]) is not None

    def text_before(m):
        return m.string[max(0, m.start() - 40) : m.start()]

    for m in CODE_COMMENT.finditer(text):
        out.append(WORD.sub(word, text[last : m.start()]))
        out.append(m[0] if m[0].startswith('"') else turned_comment(m[0], turns))
        last = m.end()
    out.append(WORD.sub(word, text[last:]))
    return "".join(out)


def turned_rt(text, turns):
    """The names in camel case, and the others that a clause imports."""
    lent_here = {it.strip() for use in GHOST.finditer(text) for it in use[1].split(",") if it.strip() in turns and not re.search("[a-z0-9][A-Z]", it)}
    text = re.sub(r"(?<![\w-])[A-Za-z]\w*", lambda m: turns[m[0]] if m[0] in turns and re.search("[a-z0-9][A-Z]", m[0]) else m[0], text)
    for name in sorted(lent_here, key=len, reverse=True):
        text = re.sub(rf"(?<![\w-]){re.escape(name)}(?![\w-])", turns[name], text)
    return text


def turned_locals(text, kept):
    """Camel case that is left, as of variables, where the file has no such word yet."""
    words = set(re.findall(r"[\w'\u2080-\u2089-]+", CODE_COMMENT.sub("", text)))
    word = re.compile(r"(?<![\w'\u00b7-])[a-z][\w']*[a-z0-9][A-Z][\w'\u2080-\u2089]*(?![\w'\u00b7-])")

    def turned(m):
        new = in_snake_case(m[0])
        return m[0] if m[0] in kept or new in words else new

    out, last = [], 0
    for m in CODE_COMMENT.finditer(text):
        out += [word.sub(turned, text[last : m.start()]), m[0]]
        last = m.end()
    return "".join(out + [word.sub(turned, text[last:])])


def main(argv):
    root = "."
    own, turns = table(root)
    clash = 0
    for path in files(root):
        with open(path, encoding="utf-8") as f:
            text = f.read()
        words = set(WORD.findall(CODE_COMMENT.sub("", text)))
        for w in sorted(words):
            if w in turns and turns[w] in words and (path.endswith(".antt") or is_camel(w)):
                print(f"in {path}: {w} -> {turns[w]} stands there")
                clash += 1
    print(f"{len(own)} names declared, {len(turns)} turned, {clash} to look at")
    if "--check" in argv:
        return 0
    changed = 0
    crates = os.listdir(os.path.join(root, "crates"))
    for path in files(root):
        with open(path, encoding="utf-8") as f:
            text = f.read()
        kept = set(lent(text, crates))
        here = {old: new for old, new in turns.items() if old not in kept}
        new = turned_rt(text, here) if path.endswith(".rt") else turned_antt(text, here, is_goals(path))
        if path.endswith(".antt") and not path.endswith("Unfolded.antt"):
            new = turned_locals(new, kept)
        for use in GHOST.finditer(new) if path.endswith(".rt") else ():
            for alias in re.findall(r" as ([a-z]+(?:[A-Z][a-z]*)+)", use[1]):
                new = re.sub(rf"(?<![\w-]){alias}(?![\w-])", in_snake_case(alias), new)
        if new != text:
            with open(path, "w", encoding="utf-8") as f:
                f.write(new)
            changed += 1
    print(f"{changed} files changed")
    return 0


if __name__ == "__main__":
    raise SystemExit(main(sys.argv[1:]))
