#!/usr/bin/env python3
"""Sets the must-fail edits' rows of docs/EVIDENCE.md by a log of `rt must-fail` or of the gate: the place of each
edit's first error. Rows that are missing are put in, with the edit's first line for what it does; those of edits that
are gone are taken out. Edits that the log lacks keep their place.

    rt must-fail > LOG 2>&1; python3 tools/edit_rows.py LOG
"""
import pathlib
import re
import sys

ROOT = pathlib.Path(__file__).resolve().parent.parent
PAGE = ROOT / "docs/EVIDENCE.md"
REFUSED = re.compile(r"^rt: must-fail (\w+)/(\w+)\.edit: refused, as it must be: (?:error: |note: )?(\S+?:\d+:\d+):")
ROW = re.compile(r"^\| ([a-z_]+/[a-z0-9_]+) \| (.*) \| (\S+:\d+:\d+) \|$")


def place(path):
    """./proofs/A/B/Answers.antt:1:2 is A::B:1:2, ./proofs/Laws.antt:1:2 is Laws:1:2, src/lib.rt:1:2 stays"""
    path = path.removeprefix("./")
    if not path.startswith("proofs/"):
        return path
    file, line, column = path.removeprefix("proofs/").rsplit(":", 2)
    return "::".join(file.removesuffix(".antt").removesuffix("/Answers").split("/")) + f":{line}:{column}"


def main():
    places = {}
    for line in pathlib.Path(sys.argv[1]).read_text().splitlines():
        if found := REFUSED.match(line):
            places[f"{found[1]}/{found[2]}"] = place(found[3])
    lines = PAGE.read_text().splitlines()
    old = {found[1]: (found[2], found[3]) for line in lines if (found := ROW.match(line))}
    first = next(i for i, line in enumerate(lines) if ROW.match(line))
    rows = []
    for edit in sorted(ROOT.glob("crates/*/must-fail/*.edit")):
        crate, name = edit.parts[-3], edit.stem
        if crate == "row_limits":  # these stand in one sentence
            continue
        label = f"{crate}/{name}"
        says, where = old.get(label, (edit.read_text().splitlines()[0].removeprefix("#").strip(), None))
        where = places.get(label, where)
        if where is None:
            sys.exit(f"edit_rows: {label} is neither in the log nor in the document")
        rows.append(f"| {label} | {says} | {where} |")
    rest = [line for line in lines[first:] if not ROW.match(line)]
    PAGE.write_text("\n".join(lines[:first] + sorted(rows) + rest) + "\n")


main()
