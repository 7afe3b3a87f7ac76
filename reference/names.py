#!/usr/bin/env python3
"""Prints each name that means two things: definitions of specs/, types and functions of src/, and modules of definitions and lemmas.

Run at the top of the repository. A reader who meets a name should find one thing under it, in whichever crate. Types and functions
are those that stand at the left edge of a file as `pub` or `pub(crate)`; a method is known by its type. A name that is a definition and
a function too is one thing where the function's own contract says so: the source file takes that definition in by `ghost use`, and an
`ensures` of the function names it. One that is a definition and a type is one thing where the source file takes that definition in, for
its contracts speak of it then, or where a file of definitions takes in both, for it views the one as the other. Crates of tests and
times aren't read. The names in EXCUSED may stand twice, each for the reason beside it. The status is 1 where anything was printed.
"""
import itertools
import pathlib
import re
import sys

# name: why it may stand in two places
EXCUSED = {
    "Lib": "each folder of definitions or lemmas has its list of modules",
    "content": "the folder of texts and queries and that of their formers each have their list of modules",
    "Entry": "the columns that cs_cache keeps of a query, and in cs_model_kept what they stand for",
    "excerpt": "the call of cs_more, and the text in cs_model_excerpts that it gives",
    "score": "the call of cs_rank for all documents, and in cs_model the score of one",
    "serve": "the call of cs_hub over a hub, and in cs_model_serving the responses that it sends",
    "Answer": "what a head gets in cs_hub, and a line of a script in cs_top: neither crate names both",
    "CountsRows": "of a run of words in cs_build and of the marks of words in cs_tables: neither crate nor one above names both",
}

OF_TESTS = ("cs_tests", "cs_unit_tests", "cs_system_tests", "timed")
DEFINITION = re.compile(r"^\s*(?:abbrev pub|unfoldable pub|pub record|pub data|pub)\s+([^\s:{(]+)")
OPEN_RECORD = re.compile(r"^(?:abbrev |unfoldable )?(?:pub )?(?:record|data)\b")
ITEM = re.compile(r"^pub(?:\(crate\))? (?:(?P<type>struct|enum|trait|type|union)|(?:const )?fn) (?P<name>\w+)")
TAKES_IN = re.compile(r"\buse Rattle\.")
STEP = re.compile(r"\s*(?P<name>[^\s{},;]*)(?: as [^\s{},;]+)?\s*(?P<mark>[{},;]?)")    # of the path behind it, `A.{b, C.{d as e}}`
ENSURES = re.compile(r"^ +ensures\b.*?(?=^ +(?:ensures|requires|//)|\Z)", re.M | re.S)
DECLARED = ".specs.declared."    # the modules in which a crate's types are known to definitions


def definitions(path):
    """The public names of a file of definitions, with their lines; fields of a record are no names of their own."""
    inside = None  # how far the record is set in whose fields follow
    for number, line in enumerate(path.read_text(encoding="utf-8").splitlines(), 1):
        if not line.strip():
            continue
        depth = len(line) - len(line.lstrip())
        if inside is not None and depth > inside:
            continue
        inside = depth if OPEN_RECORD.match(line.strip()) else None
        found = DEFINITION.match(line)
        if found and found[1] not in ("mod", "use"):
            yield found[1], number


def items(path):
    """The types and functions of a source file, as kind, name and line."""
    for number, line in enumerate(path.read_text(encoding="utf-8").splitlines(), 1):
        if found := ITEM.match(line):
            yield "type" if found["type"] else "function", found["name"], number


def ensured(path, number):
    """What the `ensures` of the function at this line say."""
    head = itertools.takewhile(lambda line: not line.startswith(("{", "}")), path.read_text(encoding="utf-8").splitlines()[number:])
    return " ".join(ENSURES.findall("\n".join(head)))


def paths(text, at):
    """The paths that a `use` names whose first path begins here."""
    outer, at_end = [""], False
    while not at_end:
        step = STEP.match(text, at)
        at = step.end()
        if step["mark"] == "{":
            outer.append(outer[-1] + step["name"])
            continue
        if step["name"]:
            yield outer[-1] + step["name"]
        if step["mark"] == "}":
            outer.pop()
        at_end = len(outer) == 1 or at == len(text)


def taken_in(path):
    """The definitions that a file takes in, as the file in which each stands and its name, and the types, as crate and name."""
    text = path.read_text(encoding="utf-8")
    for found in TAKES_IN.finditer(text):
        for module, _, name in (whole.rpartition(".") for whole in paths(text, found.end())):
            crate, declared, _ = module.partition(DECLARED)
            yield crate if declared else "crates/" + module.replace(".", "/") + ".antt", name


def sources(crate):
    """The source files of a crate that are no tests."""
    return [path for path in sorted((crate / "src").rglob("*.rt")) if crate.name not in OF_TESTS and not path.name.endswith("tests.rt")]


def modules(crate):
    """The modules of definitions and lemmas. The folders of proofs/ are those of functions: their files are none."""
    yield from ((path.stem, path) for path in sorted((crate / "specs").rglob("*.antt")))
    yield from ((path.stem, path) for path in sorted((crate / "proofs").glob("*.antt")))


def places(crates):
    """For each kind of name, where each name stands, as file and line; and what each file takes in, itself included."""
    kinds, uses = {"definition": {}, "type": {}, "function": {}, "module": {}}, {}

    def note(kind, name, path, line):
        kinds[kind].setdefault(name, []).append((str(path), line))

    for crate in crates:
        for path in sorted((crate / "specs").rglob("*.antt")):
            uses[str(path)] = {*taken_in(path), *((str(path), name) for name, _ in definitions(path))}
            for name, line in definitions(path):
                note("definition", name, path, line)
        for path in sources(crate):
            uses[str(path)] = set(taken_in(path))
            for kind, name, line in items(path):
                note(kind, name, path, line)
        for name, path in modules(crate):
            note("module", name, path, 1)
    return kinds, uses


def doubles(kinds, uses):
    """Each name that means two things, as its kind, name and places."""
    for kind, names in kinds.items():
        for name, stands in sorted(names.items()):
            if len(stands) > 1:
                yield kind, name, stands
    for kind in ("type", "function"):
        for name, stands in sorted(kinds[kind].items()):
            for file, line in stands:
                defined = kinds["definition"].get(name, [])
                said = ensured(pathlib.Path(file), line) if kind == "function" else None
                if defined and not any(is_one(name, file, other, uses, said) for other, _ in defined):
                    yield f"{kind} and definition", name, [(file, line), *defined]


def is_one(name, source, defined, uses, said):
    """Whether what a source file and a file of definitions have under one name is one thing; `said` is what a function ensures."""
    if said is not None:
        return (defined, name) in uses[source] and re.search(rf"(?<![\w'.-]){re.escape(name)}(?![\w'-])", said) is not None
    crate = pathlib.Path(source).parts[1]
    return (defined, name) in uses[source] or any({(defined, name), (crate, name)} <= taken for taken in uses.values())


def main():
    crates = sorted(path for path in pathlib.Path("crates").iterdir() if (path / "src").is_dir())
    if not crates:
        sys.exit("no crates: run this at the top of the repository")
    found = [double for double in doubles(*places(crates)) if double[1] not in EXCUSED]
    for kind, name, stands in found:
        print(f"{kind} {name}: {', '.join(f'{file}:{line}' for file, line in stands)}")
    return 1 if found else 0


if __name__ == "__main__":
    sys.exit(main())
