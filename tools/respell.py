#!/usr/bin/env python3
"""Respells the repository's own definitions and lemmas as today's Rattle spells names: words in snake case, facts and types in camel case.

usage: python3 tools/respell.py [FOLDER]    FOLDER is a checkout (this one, if left out) in which the kit's port.py has run

It ran once, in the commit that docs/PORT.md names on its second line, and stays so that the step can be done again. A name goes from
`child-at`, `treesOf` or `Sizes-from` to `child_at`, `trees_of` or `SizesFrom`; a name that a file imports from the kit's own library
stays there, as does everything in the code of src/ (functions, types, strings) and in comments outside backticks. Two names that would
fall together in one file are reported, and nothing is written."""
import collections
import pathlib
import re
import sys

WORD = re.compile(r"[^\W\d][\w'?!-]*")
# A definition: its modifiers, its name, then its parameters and its type.
DEFINED = re.compile(r"^\s*((?:(?:pub|abbrev|unfoldable|package|record|data|private|open)\s+)*)([^\W\d][\w'?!-]*)(?:\s+[({].*[)}])?\s*:(?!=)")
RESERVED = {"data", "record", "deriving", "module", "where", "use", "mod", "pub", "package", "open", "as", "unfoldable", "abbrev", "axiom",
            "unfold", "unfolding", "ruleset", "mutual", "infix", "infixl", "infixr", "elim", "let", "in", "do", "Type", "coe", "fcoe",
            "tcoe", "hcom", "com"}
# Names that would fall together with another's.
CHOSEN = {"Broken-by": "IsBrokenBy", "key-with": "key_with_stored", "withdraw-with": "withdraw_with_stored", "step-of": "strategy_step_of",
          "literal-child": "literal_child_place", "P-or-Q": "p_or_q", "line_Refused": "line_refused"}
IMPORT = re.compile(r"\buse\s+([\w.·]+?)\.\{([^}]*)\}", re.S)


def files(top, ending):
    return sorted(p for p in (top / "crates").rglob("*" + ending) if "out" not in p.parts)


def own_crates(top):
    lines = (top / "crates.txt").read_text(encoding="utf-8").splitlines()
    return {line.split("#")[0].split(":")[0].split()[0] for line in lines if line.split("#")[0].strip()}


def snake(name):
    name = re.sub(r"(?<=[a-z0-9])([A-Z])", lambda m: "_" + m.group(1).lower(), name)
    return name.replace("-", "_")


def camel(name):
    return "".join(part[:1].upper() + part[1:] for part in name.split("-"))


def respelled(name, signature):
    """The new spelling of a name, by what its signature says that it is."""
    if name in CHOSEN:
        return CHOSEN[name]
    if name[0].isupper():
        return camel(name) if "-" in name and re.search(r"\bType\b", signature) else name
    return snake(name)


def definitions(top, own):
    """Each own name that has an older spelling, with its new one."""
    found = {"line_Refused": CHOSEN["line_Refused"]}
    taken = set().union(*(imported(path.read_text(encoding="utf-8"), own) for path in files(top, ".antt")))
    for path in files(top, ".antt"):
        if path.name not in ("Proof.antt", "Invariants.antt", "Answers.antt"):
            code = re.sub(r"(?m)--\s.*$|\.[\w'-]+|\"(?:[^\"\\]|\\.)*\"", "", path.read_text(encoding="utf-8"))
            for word in WORD.findall(code):
                if re.fullmatch(r"[a-z][\w']*(-[\w']+)+", word) and word not in taken:
                    found.setdefault(word, snake(word) if word not in CHOSEN else CHOSEN[word])
        for line in path.read_text(encoding="utf-8").splitlines():
            if line.lstrip().startswith(("--", "use ")):
                continue
            m = DEFINED.match(line) or re.match(r"^\s*((?:pub )?(?:record|data) )([\w'-]+)", line)
            if not m:
                continue
            name = m.group(2)
            if "record" in m.group(1) or "data" in m.group(1):
                line += " : Type"
            if "-" in name or re.search(r"[a-z][A-Z]", name) and name[0].islower():
                new = respelled(name, line)
                if new != name and (name not in found or name[0].isupper()):
                    found.setdefault(name, new)
    return found


def imported(text, own):
    """The names that a file takes from libraries that are not the repository's."""
    names = set()
    for path, inner in IMPORT.findall(text):
        parts = path.split(".")
        if parts[0] == "Rattle" and len(parts) > 1 and parts[1] in own:
            continue
        names |= {w.strip().split(" as ")[0] for w in inner.split(",")}
    return names


def outside_strings(turn, code):
    """Code with `turn` done on all of it but its strings."""
    return "".join(part if part.startswith('"') else turn(part) for part in re.split(r'("(?:[^"\\]|\\.)*")', code))


def in_antt(text, names):
    """The text of an antt file, respelled; in comments between backticks alone."""
    lines = []
    for line in text.split("\n"):
        code, dashes, comment = line.partition("--") if line.lstrip().startswith("--") or " -- " in line else (line, "", "")
        code = outside_strings(lambda part: WORD.sub(lambda m: names.get(m.group(0), m.group(0)), part), code)
        comment = re.sub(r"`[^`]*`", lambda q: WORD.sub(lambda m: names.get(m.group(0), m.group(0)), q.group(0)), comment)
        lines.append(code + dashes + comment)
    return "\n".join(lines)


def in_source(text, names):
    """The text of a source file: its quoted names, and those whose humps only a clause can have."""
    def quoted(m):
        new = names.get(m.group(1), m.group(1))
        return new if re.fullmatch(r"[^\W\d][\w']*", new) and new not in RESERVED else "«" + new + "»"
    text = re.sub(r"«([^»]*)»", quoted, text)
    humps = {old: new for old, new in names.items() if "-" not in old}
    return WORD.sub(lambda m: humps.get(m.group(0), m.group(0)), text)


def fallen_together(text, names):
    """Pairs of names of one file that the new spelling would make one."""
    made = collections.defaultdict(set)
    for word in set(WORD.findall(re.sub(r"(?m)^\s*--.*$|[\w'-]+\.(?=[\w{])|\.[\w'-]+", "", text))):
        made[names.get(word, word)].add(word)
    # port.py turns the operator's name where it is used and not where it stands between its arguments.
    return [sorted(words) for words in made.values() if len(words) > 1 and "or-else" not in words]


def main():
    top = pathlib.Path(sys.argv[1] if len(sys.argv) > 1 else pathlib.Path(__file__).resolve().parent.parent)
    own = own_crates(top)
    names = definitions(top, own)
    turned, bad = {}, 0
    made = {"Invariants.antt", "Answers.antt"}
    for path in [p for p in files(top, ".antt") + files(top, ".rt") if p.name not in made]:
        text = path.read_text(encoding="utf-8")
        theirs = imported(text, own)
        here = {old: new for old, new in names.items() if old not in theirs}
        for words in fallen_together(text, here) if path.suffix == ".antt" else []:
            print(f"{path.relative_to(top)}: {' and '.join(words)} would be one name")
            bad += 1
        turned[path] = in_antt(text, here) if path.suffix == ".antt" else in_source(text, here)
    if bad:
        sys.exit(f"{bad} pairs fall together; nothing was written")
    for path, text in turned.items():
        path.write_text(text, encoding="utf-8")
    print(f"{len(names)} names respelled")


if __name__ == "__main__":
    main()
