#!/usr/bin/env python3
"""Writes a collection from a Debian package catalogue to standard output.

    examples/catalogue.py [FILE ..] > packages.txt

A FILE is a list of stanzas, as /var/lib/dpkg/status or what `apt-cache dumpavail` prints; the first
is read where none is given. A package is a line, the first time that it is met: its name and short
description as title; section, maintainer, priority and source as facets; its long description as
text. A FILE of apt's translations, as /var/lib/apt/lists/*_Translation-en, gives long descriptions
to packages of the other files that have none. A FILE that ends in .lz4 is read through `lz4`.
"""
import io
import subprocess
import sys


def opened(path):
    """The text of a file."""
    if path.endswith(".lz4"):
        unpacked = subprocess.run(["lz4", "-dc", path], capture_output=True, check=True).stdout
        return io.TextIOWrapper(io.BytesIO(unpacked), encoding="utf-8", errors="replace")
    return open(path, encoding="utf-8", errors="replace")


def stanzas(path):
    """The stanzas of a file, each a map from field names to their lines."""
    with opened(path) as file:
        fields, name = {}, None
        for line in file:
            line = line.rstrip("\n")
            if not line:
                if fields:
                    yield fields
                fields, name = {}, None
            elif line[0] in " \t" and name:
                fields[name].append(line.strip())
            else:
                name, _, value = line.partition(":")
                fields[name] = [value.strip()]
        if fields:
            yield fields


def clean(text):
    """The text without what ends a line or a column."""
    return " ".join(text.split())


def facet(name, value):
    """One piece of the facets column; a value has no semicolon."""
    return f"{name}={clean(value).replace(';', ',')}"


def line_of(fields, translations):
    """The line of a package."""
    package = fields["Package"][0]
    short, *long = fields.get("Description", [""])
    facets = [
        facet(name, fields[field][0])
        for name, field in (("section", "Section"), ("maintainer", "Maintainer"), ("priority", "Priority"))
        if field in fields
    ]
    facets.append(facet("source", fields.get("Source", [package])[0].partition(" ")[0]))
    return "\t".join((clean(f"{package} {short}"), ";".join(facets), clean(" ".join(long or translations.get(package, [])))))


def main():
    packages, translations = {}, {}
    for path in sys.argv[1:] or ["/var/lib/dpkg/status"]:
        for fields in stanzas(path):
            package = fields.get("Package", [""])[0]
            if "Description-en" in fields:
                translations.setdefault(package, fields["Description-en"][1:])
            elif package:
                packages.setdefault(package, fields)
    for fields in packages.values():
        print(line_of(fields, translations))


if __name__ == "__main__":
    main()
