#!/usr/bin/env python3
"""docs/ARCHITECTURE.md tells the truth: each name in its tables is declared in the file beside it, and each file is there; and no module of the
subnet runner makes or reads a flat card."""

import re

from paths import root

import report

GROUP = re.compile(r"((?:`[^`]+`(?:, )?)+) in (\S+)")
FILE = re.compile(r"^tests/\S+$")


def path_of(place):
    """A crate's path, as card/specs/Bits.antt, or one of the repository."""
    return root / "crates" / place


def declared(name, place):
    path = path_of(place)
    if place.endswith("/must-fail"):
        return (path / f"{name}.edit").is_file()
    if not path.is_file():
        return False
    marks = r"(?:unfoldable |abbrev |pub |extern \"C\" |record |data |fn |struct |enum )*"
    return re.search(rf"^\s*{marks}{re.escape(name)}(?=[ :(<{{]|$)", path.read_text(), re.M) is not None


def cells(text):
    for line in text.split("\n"):
        if line.startswith("| ") and not set(line) <= set("|- "):
            yield line, [cell.strip() for cell in line.strip("|").split(" | ")][1:]


def imported(module):
    """The crates and the modules of its own crate that a module of the runners uses; definitions in contracts are no use of code."""
    text = (root / f"crates/runners/src/{module}.rt").read_text()
    return set(re.findall(r"^use (?:crate::)?(\w+)", text, re.M))


def subnet_view():
    """All that the subnet runner uses, directly or through what it uses."""
    seen, left = set(), ["subnet_runner"]
    while left:
        module = left.pop()
        if module not in seen:
            seen.add(module)
            left += imported(module) if (root / f"crates/runners/src/{module}.rt").is_file() else []
    return seen


def main():
    passed, wrong = 0, []
    view = subnet_view()
    for name, expected in (("visits", True), ("flattening", False), ("flat_runner", False)):
        passed += (name in view) == expected
        wrong += [] if (name in view) == expected else [f"the subnet runner {'uses' if name in view else 'does not use'} {name}"]
    for line, columns in cells((root / "docs/ARCHITECTURE.md").read_text()):
        for column in columns:
            for part in column.split("; "):
                group = GROUP.match(part)
                if group:
                    names = re.findall(r"`([^`]+)`", group.group(1))
                    missing = [name for name in names if not declared(name, group.group(2))]
                    passed += len(names) - len(missing)
                    wrong += [f"{name} is not declared in {group.group(2)}" for name in missing]
                elif FILE.match(part):
                    passed += (root / part).is_file()
                    wrong += [] if (root / part).is_file() else [f"{part} is not there"]
    report.close(passed, wrong)


main()
