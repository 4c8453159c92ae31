#!/usr/bin/env python3
# Brings this repository's own names to the spelling of today's Rattle: definitions, lemmas, fields and variables of specs/
# and proofs/ in snake case, a fact as a type in camel case. Names of a library, names that the check makes, functions of
# src/, strings, inputs and outputs stay. Run once at the top, after port.py. With --list it prints the names and changes nothing.
import glob
import re
import sys
from collections import defaultdict

TOKEN = r"[^\s(){}\[\].,;:λ→×↦|⌜⌝«»\"?=&]+"
PLAIN = re.compile(r"^[a-z][A-Za-z0-9'₀-₉\-_]*$")

# A dash joins two names: these, of the library's operations.
OPERATIONS = set("add sub mul div mod pow le lt eq quot rem abs shr shl neg suc length take drop append root min max".split())

# Names that fall together with another after the spelling: what each is called instead.
INSTEAD = {
    name: name.replace("-", "_") + "_lem"
    for name in (
        "all_read base-square close-told end-facts exact-at exp-one field-text fields-text figure-number hard-soil in-front "
        "intra-variance ln-one more-text no_line not-below-pga part-told path-given path-rows record_of row-at sent_back "
        "signed_back site-rows source-given source-number soft-soil spread_at y-low"
    ).split()
}


def snake(word):
    word = re.sub(r"([a-z0-9])([A-Z])", r"\1_\2", word)
    word = re.sub(r"([A-Z])([A-Z][a-z])", r"\1_\2", word)
    return word.lower()


def respelled(name, facts, known):
    if name in INSTEAD:
        return INSTEAD[name]
    if not PLAIN.match(name):
        return name
    if name in facts:
        return "".join(w[:1].upper() + w[1:] for w in re.split(r"[-_]", name))
    parts = name.split("-")
    dash = len(parts) > 1 and all(p.rstrip("'") in OPERATIONS or p in known for p in parts)
    return ("-" if dash else "_").join(snake(p) for p in parts)


def uncommented(text):
    return "\n".join(re.sub(r"(^|\s)--.*$", r"\1", line) for line in text.split("\n"))


def imports(text, keyword):
    """Each imported name: True where it is of this repository."""
    own = {}
    for module, names in re.findall(keyword + r"\s+([^\s{;]+?)\.\{([^}]*)\}", text, re.S):
        ours = module.startswith("Rattle.") and module.split(".")[1] in CRATES
        for name in re.split(r"[,\s]+", names):
            if name:
                own[name] = own.get(name, False) or ours
    return own


CRATES = {f.split("/")[1] for f in glob.glob("crates/*/")}
PROOFS = sorted(glob.glob("crates/*/specs/**/*.antt", recursive=True) + glob.glob("crates/*/proofs/**/*.antt", recursive=True))
SOURCES = sorted(glob.glob("crates/*/src/**/*.rt", recursive=True))


def declared(text):
    """The names that a file declares: top level, where, fields, binders; and which of them are facts."""
    names, facts, top = set(), set(), set()
    text = uncommented(text)
    for m in re.finditer(r"(?m)^([ ]*)(?:pub |abbrev |unfoldable |private )*(" + TOKEN + r")((?:[ ]+[({][^\n]*[)}])*) ?:(?!:)([^\n]*)", text):
        indent, name, _, rest = m.groups()
        if not PLAIN.match(name) or name in ("record", "data", "module", "use", "let", "in"):
            continue
        if re.match(r"\s*(tie|goal)\.(Need|Inv|Measure|invariant|decreases)", rest):
            continue
        names.add(name)
        if not indent:
            top.add(name)
            if re.search(r"(→|:|^)\s*Type [01]\s*$", rest):
                facts.add(name)
    for group in re.findall(r"[({]\s*((?:" + TOKEN + r"\s+)+):(?!:)", text):
        names |= {w for w in group.split() if PLAIN.match(w)}
    for group in re.findall(r"λ\s*((?:" + TOKEN + r"\s*)+)\.\s", text):
        names |= {w for w in group.split() if PLAIN.match(w)}
    for name in re.findall(r"let\s+(" + TOKEN + r")\s*[:=]", text):
        if PLAIN.match(name):
            names.add(name)
    return names, facts, top


def main():
    texts = {f: open(f).read() for f in PROOFS + SOURCES}
    own, facts, top = set(), set(), set()
    where = defaultdict(set)
    for f in PROOFS:
        n, k, t = declared(texts[f])
        own |= n
        facts |= k
        top |= t
        for name in n:
            where[name].add(f)
    mapping = {n: respelled(n, facts, top) for n in own}
    mapping = {a: b for a, b in mapping.items() if a != b}
    if "--list" in sys.argv:
        back = defaultdict(set)
        for a in own:
            back[mapping.get(a, a)].add(a)
        for b, group in sorted(back.items()):
            if len(group) > 1:
                print("together:", b, {a: sorted(where[a])[:3] for a in sorted(group)})
        functions = defaultdict(set)
        for f in SOURCES:
            for name in re.findall(r"\bfn ([a-z0-9_]+)", texts[f]):
                functions[name].add(f)
        for f in SOURCES:
            for name, ours in imports(texts[f], "ghost use").items():
                b = mapping.get(name, name)
                if b in functions:
                    print("function:", name, b, f, sorted(functions[b]))
        print("facts:", sorted(facts))
        print(len(mapping), "names")
        return
    for f, text in texts.items():
        source = f.endswith(".rt")
        inside = imports(text, "ghost use" if source else r"(?:pub )?use")
        library = {n for n, ours in inside.items() if not ours}
        names = {a: b for a, b in mapping.items() if a not in library}
        if source:
            names = {a: b for a, b in names.items() if inside.get(a) or re.search(r"[A-Z-]", a)}
        mark = "//" if source else "--"

        def turned(m):
            if m.group(0).startswith(('"', mark)):
                if m.group(0).startswith('"'):
                    return m.group(0)
                return re.sub(r"`([^`\n]*)`", lambda q: "`" + re.sub(TOKEN, lambda t: names.get(t.group(0), t.group(0)), q.group(1)) + "`", m.group(0))
            before, word = m.group(1), m.group(2)
            if word not in names or before in ("tie.", "goal.") or before.endswith(("Statement.", "Lts.")):
                return m.group(0)
            return before + names[word]

        comment = r"(?m)//.*$|" if source else r"(?m)(?:(?<=\s)|^)--(?=\s).*$|"
        new = re.sub(comment + r"\"(?:[^\"\\\n]|\\.)*\"|((?:(?<![\w'\-])[A-Za-z_]\w*\.)?)(?<![\w'\-])(" + TOKEN + r")", turned, text)
        if new != text:
            open(f, "w").write(new)


main()
