"""What the pages say of the sources: names in backticks, clauses beside their calls, wrong bodies, and words that belong to neither.

A finding is a place and what is wrong there. How a name is looked for: a text in backticks that has a `/`, or ends as a file does, must
be the end of a path of the repository, with or without its suffix. One that is a name, or names joined by `::`, must stand in the
sources outside comments, or be a file or folder; behind a crate it must stand in that crate. Passed over is what is no name of
ours: options, queries, commands and JSON, which have spaces or signs; absolute paths and addresses; words in capitals that a user
chooses for a file; words beyond ASCII, which are examples; and in pages for users words without `_` and `::`, which are queries and
answers. A line that says that something is gone may name it.
"""
import pathlib
import re

from names import items

ROOTS = ("README.md", "CONTRIBUTING.md", "CHANGELOG.md")
FOR_USERS = ("README.md", "COLLECTION.md", "COMMANDS.md", "HTTP.md", "INDEX_FILE.md", "QUERY.md", "SERVING.md", "BENCHMARKS.md")
OF_CLAUSES = (pathlib.Path("docs/PROMISES.md"), pathlib.Path("docs/STATEMENTS.md"))
SOURCES = (".rt", ".antt", ".py", ".sh", ".js", ".html", ".conf", ".h", ".cpp", ".txt", ".service")
# Programs, crates with their calls, media types, patterns, pieces of names, and files that a user has: no names of the sources.
OUTSIDE = {"perf", "curl", "rand_pcg", "advance", "application/x-www-form-urlencoded", ".rt", ".antt", "..Examples.antt", "req",
           "addresses.txt", "texts.txt", "collection.tsv", "builds/NAME/addresses.txt"}

NAME = r"[^\W\d][\w']*"
QUOTED = re.compile(r"`([^`\n]+)`")
PATH = re.compile(r"[\w.*-]*[\w*](?:/[\w.*-]+)*/?")
SUFFIX = re.compile(r"\.(?:rt|antt|py|sh|md|edit|cpp|h|tsv|txt|conf|html|js|service|png)$")
CLAUSE = re.compile(r"\s*(?:requires|ensures)(?: (?P<label>\w+))? *\{")
FUNCTION = re.compile(r"(?P<margin>\s*)(?P<public>pub(?:\(crate\))? )?(?:const |unsafe )*fn (?P<name>\w+)")
GROUP = re.compile(r"\(([^()]*`: `[^()]*)\)")    # calls and clauses in brackets, as (`ask`: `ok`; `new`: `room`)
HEADER = re.compile(r"(?:pub(?:\(crate\))? )?(?:impl|trait)\b")


def pages():
    """The pages of the repository; of the changelog the part that isn't released yet."""
    for path in [*map(pathlib.Path, ROOTS), *sorted(pathlib.Path("docs").glob("*.md"))]:
        text = path.read_text(encoding="utf-8")
        yield path, text.partition("\n## 0.")[0] if path.name == "CHANGELOG.md" else text


def prose(text):
    """The lines of a page that stand in no fence, with their numbers."""
    fenced = False
    for number, line in enumerate(text.splitlines(), 1):
        if line.lstrip().startswith("```"):
            fenced = not fenced
        elif not fenced:
            yield number, line


def cells_of(line):
    return [cell.strip() for cell in re.split(r"(?<!\\)\|", line.strip())[1:-1]]


def table_rows(text):
    """Each row of each table of a page: its line, and its cells by the words above them."""
    heads = None
    for number, line in prose(text):
        cells = cells_of(line) if line.startswith("|") else None
        if cells is None or heads is None:
            heads = cells
        elif set(line) - set("|-: "):
            yield number, dict(zip(heads, cells))


# ---- What the sources have ----
class Sources:
    """The names of the sources: words outside comments by crate, paths, and the calls with the labels of their clauses."""

    def __init__(self, files):
        self.paths = {str(path) for path in files} | {str(folder) for path in files for folder in path.parents}
        self.ends = {end for path in self.paths for end in ends_of(path)}
        self.words, self.of_crate, self.calls, types = set(), {}, [], set()
        for path in (path for path in files if path.suffix in SOURCES or path.parts[0] in ("bench", "reference", "examples")):
            text = path.read_text(encoding="utf-8", errors="replace")
            code = re.sub({".rt": r"//.*", ".antt": r"^\s*--.*"}.get(path.suffix, r"(?!)"), "", text, flags=re.M)
            words = set(re.findall(NAME, code))
            self.words |= words
            if path.parts[0] == "crates":
                self.of_crate.setdefault(path.parts[1], {path.stem, *path.parts}).update(words, {path.stem}, path.parts)
            if path.suffix == ".rt":
                self.calls += calls_of(path, text)
                types |= {name for kind, name, _ in items(path) if kind == "type"}
        self.crates = set(self.of_crate)
        self.of_type = labels_by_type(self.calls, types)

    def has(self, name):
        """Whether a name, or names joined by `::`, stand in the sources."""
        first, *rest = name.split("::")
        if first in self.crates:
            return all(piece in self.of_crate[first] for piece in rest)
        return all(piece in self.words or piece in self.ends for piece in (first, *rest))


def ends_of(path):
    """The ends of a path, with and without the suffix."""
    parts = path.split("/")
    for begin in range(len(parts)):
        end = "/".join(parts[begin:])
        yield end
        yield SUFFIX.sub("", end)


def calls_of(path, text):
    """The functions of a source file: name, crate, file, the header that they stand under, its words, whether others may call them, labels."""
    found, header = [], ""
    for line in text.splitlines():
        if line and not line[0].isspace():
            header = line if HEADER.match(line) else "" if line.startswith("}") else header
        if call := FUNCTION.match(line):
            public = bool(call["public"]) or "trait " in header or " for " in header
            found.append({"name": call["name"], "crate": path.parts[1], "file": path.stem, "header": header, "public": public,
                          "of": set(re.findall(NAME, header)), "labels": set()})
        elif (clause := CLAUSE.match(line)) and found and clause["label"]:
            found[-1]["labels"].add(clause["label"])
    return found


def labels_by_type(calls, types):
    """For each type and trait the labels of its calls; a type has those of the traits that it keeps too."""
    labels = {name: set() for name in types}
    for call in calls:
        for name in call["of"]:
            labels.setdefault(name, set()).update(call["labels"])
    for call in calls:
        trait, kept, of = call["header"].partition(" for ")
        if kept:
            given = set().union(*(labels[name] for name in re.findall(NAME, trait)))
            for name in re.findall(NAME, of):
                labels[name] |= given
    return labels


# ---- Names that don't exist ----
def missing_names(sources):
    for path, text in pages():
        for number, line in prose(text):
            for name in QUOTED.findall(line):
                if name not in OUTSIDE and not re.search(r"\bgone\b", line, re.I) and is_missing(name, path, sources):
                    yield f"{path}:{number}", f"`{name}` is nowhere in the sources"


def is_missing(name, page, sources):
    if ("/" in name or SUFFIX.search(name)) and PATH.fullmatch(name):
        return "*" not in name and name.rstrip("/") not in sources.ends and not name.startswith("crates/C/") and "/out/" not in name
    joined = "_" in name or "::" in name
    if not re.fullmatch(rf"{NAME}(?:::{NAME})*", name) or not name.isascii() or not joined and (name.isupper() or page.name in FOR_USERS):
        return False
    return not sources.has(name)


# ---- Clauses that their calls haven't ----
def missing_clauses(sources):
    for page in OF_CLAUSES:
        before = set()
        for number, row in table_rows(page.read_text(encoding="utf-8")):
            cells = [(cell, "") for cell in (row.get("call and clause"), row.get("law")) if cell]
            cells += [(group, row["crate"].strip("`")) for group in GROUP.findall(row.get("proved, and the clause that says so", ""))]
            for cell, crate in cells:
                before, wrong = judge_cell(cell, crate, before, sources)
                yield from ((f"{page}:{number}", words) for words in wrong)


def judge_cell(cell, crate, before, sources):
    """The labels of the calls of a cell, else of its crates, else those of the cell before; and what it names that is none of these."""
    names = QUOTED.findall(cell)
    crates = {piece for name in names for piece in name.split("::") if piece in sources.crates} | ({crate} & sources.crates)
    called = {name: labels_of(name, crates, "private" in cell, sources) for name in names}
    scope = set().union(*filter(None, called.values())) or {
        label for call in sources.calls if call["crate"] in crates for label in call["labels"]} or before
    left = [name for name, labels in called.items() if labels is None and name not in scope | sources.crates and not SUFFIX.search(name)]
    return scope, [f"there is no call `{name}`" if "::" in name else f"no call beside it has the clause `{name}`, nor is it a public call"
                   for name in left]


def labels_of(name, crates, private, sources):
    """The labels of a call, or of all calls of a type and of the traits that it keeps; None where the name is neither."""
    *above, last = name.split("::")
    above = {piece for piece in above if piece not in sources.crates}
    found = [call for call in sources.calls if call["name"] == last and (call["public"] or private or above) and above <= call["of"] | {call["file"]}]
    if found:
        return {label for call in [call for call in found if call["crate"] in crates] or found for label in call["labels"]}
    return None if above else sources.of_type.get(last)


# ---- Wrong bodies ----
def wrong_bodies(_sources):
    bodies = {path.stem: path for path in sorted(pathlib.Path("crates").glob("*/must-fail/*.edit"))}
    named = {name for _, text in pages() for name in QUOTED.findall(text)}
    yield from ((str(path), "no page names it") for stem, path in bodies.items() if stem not in named)
    page = pathlib.Path("docs/PROMISES.md")
    for number, row in table_rows(page.read_text(encoding="utf-8")):
        for name in QUOTED.findall(row.get("wrong bodies that it refuses", "")):
            if name not in bodies and not name.startswith("cs_") and name != "complete":
                yield f"{page}:{number}", f"there is no wrong body `{name}`"
    for path in bodies.values():
        yield from edits(path)


def edits(path):
    """The texts of a wrong body that don't stand exactly once in the file that it changes."""
    file = None
    for number, line in enumerate(path.read_text(encoding="utf-8").splitlines(), 1):
        kind, _, text = line.partition(": ")
        if kind == "file":
            file = path.parent.parent / text
        elif kind == "old":
            count = file.read_text(encoding="utf-8").count(text) if file.exists() else 0
            if count != 1:
                yield f"{path}:{number}", f"what it replaces stands {count} times in {file}"
