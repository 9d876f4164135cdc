#!/usr/bin/env python3
"""port-names.py: brings the repository's own definitions, lemmas, fields and constructors to the spelling of today's Rattle, once, after port.py:
words in snake case, types in upper camel case. Run it at the top. It turns .antt files, the ghost items and clauses of .rt files, and prints each name that changed.
Names of functions, files and modules stay. A proof's generated names (those after `tie.`) stay too."""

import os
import re
import sys

WORD = re.compile(r"[^\s(){}\[\];,.:λ⌜⌝]+")
DECLARED = re.compile(r"^(\s*)((?:(?:abbrev|unfoldable|opaque|pub|data|record)\s+)*)([^\s:{(;]+)((?: [({][^)}]*[)}])*) :(?:\s|$)(.*)$")
# Where two names would fall together, or a capital letter stood for a value.
CHOSEN = {
    "P-T": "p_t",
    "T-bytes": "t_bytes",
    "of-A": "on_a",
    "of-B": "on_b",
    "start-of-A": "start_on_a",
    "end_of-A": "end_on_a",
    "start-of-B": "start_on_b",
    "end_of-B": "end_on_b",
    "NotSooner": "WalkNotSooner",
    "all_right": "all_right_lem",
}
HEADS = {"where", "use", "let", "in", "unfolding", "module", "open", "tt", "record", "elim"}


def files(ending):
    for folder, dirs, names in os.walk("crates"):
        dirs[:] = sorted(d for d in dirs if d != "out")
        for name in sorted(names):
            if name.endswith(ending):
                yield os.path.join(folder, name)


def snake(name):
    name = name.replace("-", "_")
    name = re.sub(r"([a-z0-9])([A-Z])(?=[a-z_]|$)", lambda m: m.group(1) + "_" + m.group(2).lower(), name)
    return re.sub(r"([a-z0-9])([A-Z])", lambda m: m.group(1) + "_" + m.group(2).lower(), name).lower()


def camel(name):
    return "".join(part[:1].upper() + part[1:] for part in name.split("-"))


def respelled(name):
    if name in CHOSEN:
        return CHOSEN[name]
    if not re.match(r"^[A-Za-z][A-Za-z0-9_'-]*$", name):
        # an operator's letters stay; a dash between words goes
        return re.sub(r"(?<=[\w'])-(?=[\w'])", "_", name) if re.search(r"[A-Za-z]{2}", name) else name
    if "-" in name and name[0].isupper():
        return camel(name)
    if "-" in name or re.match(r"^[a-z][a-z0-9_]*[A-Z]", name):
        return snake(name)
    return name


def declared():
    """Each declared name that changes, with its new one; a lemma that would have its function's name gets `_lem`."""
    found, stays = {}, set()
    for path in files(".antt"):
        with open(path, encoding="utf-8") as f:
            for line in f:
                several = re.match(r"^ +(?!pub |abbrev |unfoldable )((?:[a-z][\w'-]* )+[a-z][\w'-]*) : ", line)
                if several:
                    found.update((name, respelled(name)) for name in several.group(1).split() if respelled(name) != name and name not in HEADS)
                    continue
                m = DECLARED.match(line)
                if not m or m.group(3) in HEADS or line.lstrip().startswith("--") or "tie." in m.group(5).split(" ")[0]:
                    continue
                name = m.group(3)
                if name.endswith("-spec") and "statement" in m.group(5):
                    continue
                new = respelled(name)
                if new != name:
                    found[name] = new
                else:
                    stays.add(name)
    taken = stays | {new for name, new in found.items() if "-" not in name or name in CHOSEN}
    return {name: new + "_lem" if "-" in name and name not in CHOSEN and new in taken else new for name, new in found.items()}


def turned(text, names):
    """The code of one line or part with each own name respelled; what follows `tie.` stays."""
    def put(m):
        word = m.group(0)
        if text[: m.start()].endswith("tie.") or word not in names:
            return word
        return names[word]

    return WORD.sub(put, text)


def turn_antt(text, names):
    out = []
    for line in text.split("\n"):
        code, dashes, comment = line, "", ""
        m = re.search(r"(^|\s)-- ", line + " ")
        if m:
            at = m.start() + len(m.group(1))
            code, comment = line[:at], line[at:]
        comment = re.sub(r"`([^`]*)`", lambda q: "`" + turned(q.group(1), names) + "`", comment)
        out.append(turned(code, names) + comment)
    return "\n".join(out)


def turn_rt(text, names):
    """Clauses and ghost items alone: a line of code has no such names, and a string or a comment keeps its words but between back quotes."""
    out, depth = [], 0
    for line in text.split("\n"):
        m = re.match(r"^(.*?)(//.*)$", line) if not re.search(r'"[^"]*//', line) else None
        code, comment = (m.group(1), m.group(2)) if m else (line, "")
        comment = re.sub(r"`([^`]*)`", lambda q: "`" + turned(q.group(1), names) + "`", comment)
        starts = re.match(r"^\s*(?:pub )?(?:requires|ensures|ghost|invariant|decreases|law)\b", code)
        if starts or depth > 0:
            depth = max(0, depth + code.count("{") - code.count("}"))
            code = turned(code, names)
        out.append(code + comment)
    return "\n".join(out)


def main():
    names = declared()
    for path in list(files(".antt")) + list(files(".rt")):
        with open(path, encoding="utf-8") as f:
            old = f.read()
        new = turn_antt(old, names) if path.endswith(".antt") else turn_rt(old, names)
        if new != old:
            with open(path, "w", encoding="utf-8") as f:
                f.write(new)
    for name in sorted(names):
        print(name, names[name])


if __name__ == "__main__":
    sys.exit(main())
