#!/usr/bin/env python3
"""Brings the names that specs/ and proofs/ declare to today's spelling: words in snake case.

usage: python3 tools/respell.py            at the top of the repository, once, after the kit's port.py
       python3 tools/respell.py --list     which names would fall together, and what each becomes; writes nothing

Definitions, lemmas, fields and constructors turn (stepOf, every-more: step_of, every_more); types, statements, modules,
functions, strings, inputs and outputs keep their names. Where a name would fall together with another, a definition
gets _of and a lemma _lem; the few that want another word stand in WORDS. A name that a file takes from the kit stays. A second run changes nothing.
"""
import collections
import glob
import re
import sys

TOKEN = re.compile(r"[^\s(){}\[\];,.:=`\"|@]+")
DECLARED = re.compile(r"^(\s*)((?:(?:abbrev|unfoldable|pub|data|record|ruleset) )*)([^\s(){}\[\]:;,.]+)(?= :| \(| \{| =|$)")
MADE = re.compile(r"^(returns|invariant|decreases|loop|add|sub|mul|cast|shl|shr|index|range|need|goal)(-|$)")
WORDS = {
    "checkOf": "check_sum_of", "outcomeOf": "outcome_told_of", "blackToWhite": "black_over_white", "rootsSize": "size_of_roots",
    "withProcessOf": "with_process_held", "no-part": "part_none", "no-process": "process_none", "is-cell": "cell_named",
}
KEYWORDS = "use where let in module pub mod infixr infixl infix unfolding elim rw".split()


def snake(name):
    if not name[0].islower():
        return name
    return re.sub(r"(?<=[a-z0-9])(?=[A-Z])", "_", name).replace("-", "_").lower()


def files(*patterns):
    return sorted(p for pattern in patterns for p in glob.glob(f"crates/*/{pattern}", recursive=True))


def declared(path, text):
    """The names that a file declares: a line `name .. : type`, an item of a record or a data."""
    for line in text.split("\n"):
        m = DECLARED.match(line)
        if m is None or m[3] in KEYWORDS or m[3].startswith("--"):
            continue
        rest = line[m.end():]
        if not (m[2] or " : " in rest.split(" = ")[0] or (rest == "" and m[1])):
            continue
        if "/proofs/" not in path or path.count("/") == 3 or not MADE.match(m[3]):
            yield m[3]


def spelling(texts):
    """Each name that turns, with what it becomes. A definition comes first, unless a function of its crate has the name."""
    owners, functions, fields, brought = collections.defaultdict(set), collections.defaultdict(set), set(), set()
    for path, text in texts.items():
        crate = path.split("/")[1]
        if path.endswith(".antt"):
            for name in declared(path, text):
                owners[name].add(path)
            for names in re.findall(r"^(?:pub )?use (?!Rattle\.(?!std\b))[^{\n]*\{([^}]*)\}", text, re.M):
                brought |= set(TOKEN.findall(names))
        else:
            for name in re.findall(r"\bfn (\w+)", text):
                functions[name].add(crate)
            fields |= set(re.findall(r"^ *(?:pub )?(\w+): ", text, re.M))
    sharing = collections.defaultdict(list)
    for name in sorted(owners):
        if name not in brought and (name in WORDS or snake(name) != name):
            sharing[WORDS.get(name, snake(name))].append(name)
    turned = {}
    taken = set(owners) | set(functions) | fields | set(sharing)
    for new, olds in sorted(sharing.items()):
        all_of_it = olds + ([new] if new in owners and new not in olds else [])
        in_specs = [o for o in all_of_it if any("/specs/" in p for p in owners[o])]
        in_specs.sort(key=lambda o: ("-" in o, o))
        crates = {p.split("/")[1] for o in in_specs[:1] for p in owners[o]}
        free = new not in fields | brought and not (crates & functions.get(new, set()) or not in_specs and new in functions)
        for old in in_specs + [o for o in all_of_it if o not in in_specs]:
            fits = new
            if not free:
                fits = new + ("_of" if old in in_specs and not new.endswith("_of") else "_lem")
                if fits in taken:
                    print(f"respell: {old}: both {new} and {fits} are taken; put a word for it into WORDS", file=sys.stderr)
            if fits != old:
                turned[old] = fits
            taken.add(fits)
            free = False
    return turned


def turn_tokens(line, turned, dashed=True):
    return TOKEN.sub(lambda t: turned.get(t[0], t[0]) if dashed or "-" not in t[0] else t[0], line)


def turn_comment(line, turned):
    """Prose keeps its dashes; the lines that list a file's lemmas, and words in backquotes, turn whole."""
    m = re.match(r"^(\s*--     \S.*?)(  .*|$)", line)
    if m:
        return turn_tokens(m[1], turned) + turn_tokens(m[2], turned, False)
    parts = line.split("`")
    return "`".join(turn_tokens(p, turned, i % 2 == 1) for i, p in enumerate(parts))


def turn_antt(text, turned):
    return "\n".join(turn_comment(l, turned) if l.lstrip().startswith("--") else turn_tokens(l, turned) for l in text.split("\n"))


def turn_rt(text, turned):
    """Names of antt in code stand in clauses, ghost lines and comments; strings stay, and so do names of functions."""
    turned = {old: new for old, new in turned.items() if old != old.lower()}
    return "\n".join(
        '"'.join(turn_tokens(p, turned, False) if i % 2 == 0 else p for i, p in enumerate(l.split('"'))) for l in text.split("\n")
    )


def main():
    paths = files("specs/**/*.antt", "proofs/**/*.antt", "src/**/*.rt")
    texts = {p: open(p, encoding="utf-8").read() for p in paths}
    turned = spelling(texts)
    if "--list" in sys.argv:
        for old, new in sorted(turned.items()):
            print(old, new, "" if new == snake(old) else "*")
        return
    for p in files("must-fail/*.edit"):
        texts[p] = open(p, encoding="utf-8").read()
    for p, text in texts.items():
        new = turn_rt(text, turned) if p.endswith(".rt") else turn_antt(text, turned)
        if new != text:
            open(p, "w", encoding="utf-8").write(new)
    print(f"respell: {len(turned)} names turned")


main()
