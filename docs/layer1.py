#!/usr/bin/env python3
"""Writes LAYER1.md, layer 1 of the theorem as one text, from the specification files that THEOREM.md names: docs/layer1.py [--check]

With --check nothing is written, and the status is 1 where LAYER1.md isn't what would be written."""
import re
import sys

sys.dont_write_bytecode = True
from definitions import TOP, definitions, rust_types, sections

HEAD = """# Layer 1 as one text

What the words ask for, what a file loads, what a run tells, and how these make an answer: the {count} definitions of [layer 1](THEOREM.md#layer-1-privacy), from the answer down to the operations of the processor, {lines} lines without comments. The signs are told in [THEOREM.md](THEOREM.md#how-to-read-it); `report_of`, `spent_of` and `text`, which are named here and stand in layer 2 and 3, have no input among their arguments.

This file is made by [layer1.py](layer1.py) from the files that it names, without their imports and without what layer 1 doesn't need, and the gate sees that it is the same.
"""


def rust_type(crate, name):
    """A public type with its comments, as it stands in its crate, without its attributes; nothing for a type that contracts see otherwise."""
    for path in sorted((TOP / "crates" / crate / "src").rglob("*.rt")):
        text = path.read_text()
        found = re.search(rf"(?m)^((?:///.*\n|#\[.*\n)*)pub (?:enum|struct) {name}\b[\s\S]*?^\}}\n", text)
        if found and f"impl Model for {name} " not in text:
            return "".join(it + "\n" for it in found[0].splitlines() if not it.strip().startswith("#["))
    return ""


def with_parts(crate, name, shown):
    """The type, and behind it the types of its crate that it is made of, each once."""
    text = "" if (crate, name) in shown else rust_type(crate, name)
    shown.add((crate, name))
    return ([text] if text else []) + [more for it in re.findall(r"[:(<\[]\s*([A-Z]\w+)", re.sub(r"//.*", "", text)) for more in with_parts(crate, it, shown)]


def words_of(head):
    return " ".join(it.strip().removeprefix("--").strip() for it in head)


def layer():
    _, count, lines, rows = sections()[0]
    out, shown = [HEAD.format(count=count, lines=lines)], set()
    for number, (crate, file, path, names, words) in enumerate(rows, 1):
        head, found = definitions(path)
        place = path.relative_to(TOP)
        out.append(f"## {number}. [{crate}/{file}](../{place})\n")
        out.append((f"{words_of(head)} " if head else "") + words[:1].upper() + words[1:] + ".\n")
        cited = re.findall(r"\.declared\.[\w.]*?\.?([A-Z]\w*)\b", path.read_text())
        types = [more for of, it in rust_types() if it in cited for more in with_parts(of, it, shown)]
        if types:
            out.append("```rust\n" + "\n".join(types) + "```\n")
        body = [("\n".join(it.comments) + "\n" if it.comments else "") + it.text() for it in found if it.name in names]
        out.append("```\n" + "\n\n".join(body) + "\n```\n")
    return "\n".join(out)


def main(words):
    path, text = TOP / "docs/LAYER1.md", layer()
    if words == ["--check"]:
        if not path.exists() or path.read_text() != text:
            print("docs/LAYER1.md: not what docs/layer1.py writes", file=sys.stderr)
            return 1
    else:
        path.write_text(text)
    return 0


if __name__ == "__main__":
    sys.exit(main(sys.argv[1:]))
