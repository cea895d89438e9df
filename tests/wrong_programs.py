#!/usr/bin/env python3
"""The wrong programs of tests/wrong and of the crates' must-fail folders are still edits of the code: each text that one changes stands once in
the file it names, as the changes before it have left the file."""

from paths import root

import report


def crate(edit):
    """The crate that an edit is of: tests/wrong/CRATE/NAME.edit or crates/CRATE/must-fail/NAME.edit."""
    return (edit.parent.parent if edit.parent.name == "must-fail" else edit.parent).name


def faults(edit):
    """What is wrong with an edit: lines 'file: F', then for each change in F a line 'old: TEXT' and a line 'new: TEXT'."""
    found, text, old, pairs = [], "", "", 0
    for line in edit.read_text().splitlines():
        word, _, rest = line.partition(": ")
        if word == "file":
            file = root / "crates" / crate(edit) / rest
            text = file.read_text() if file.is_file() else ""
        elif word == "old":
            old = rest
            found += [] if text.count(old) == 1 else [f"{old!r} stands {text.count(old)} times in {file.relative_to(root)}"]
        elif word == "new":
            text = text.replace(old, rest, 1)
            pairs += 1
    return found if pairs else ["it changes nothing"]


def main():
    edits = sorted([*(root / "tests" / "wrong").glob("*/*.edit"), *(root / "crates").glob("*/must-fail/*.edit")])
    wrong = [f"{edit.relative_to(root)}: {'; '.join(faults(edit))}" for edit in edits if faults(edit)]
    report.close(len(edits) - len(wrong), wrong)


main()
