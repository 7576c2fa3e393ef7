"""Reads the definitions of a specification file, and the tables of THEOREM.md that name them."""
import pathlib
import re

TOP = pathlib.Path(__file__).resolve().parent.parent
HEAD = re.compile(r"\s*(?:(?:abbrev|unfoldable|opaque)\s+)*(?:pub\s+)?(?:(?:record|data|enum|class|postulate)\s+)?([^\s:({]+)")
ROW = re.compile(r"^\| \[(\w+)/(\w+)\]\((\S+?)\) \| (.+?) \| (.*) \|$")
SECTION = re.compile(r"^(\d+) definitions in (\d+) lines")


class Definition:
    """A definition: its name, the comments before it, and its lines."""

    def __init__(self, name, comments):
        self.name, self.comments, self.lines = name, comments, []

    def text(self):
        return "\n".join(self.lines).rstrip()

    def count(self):
        return sum(1 for it in self.lines if it.strip() and not it.strip().startswith("--"))


def definitions(path):
    """The comment at the file's head, and its definitions in order."""
    head, found, comments, current = [], [], [], None
    indent, began = "", False
    for line in path.read_text().splitlines():
        bare = line.strip()
        is_at_margin = line.startswith(indent) and not line[len(indent):len(indent) + 1].isspace() and bare[0:1] not in ("}", ")")
        if not bare:
            if not began and comments:
                head, comments = head + comments, []
            if current is not None and not comments:
                current.lines.append(line)
            began = began or bool(head)
            continue
        if bare.startswith("use ") and is_at_margin:
            head, comments, began = head + comments if not began else head, [], True
            continue
        if bare.startswith("module ") and bare.endswith("where"):
            comments, began, indent = [], True, "  "
            continue
        if bare.startswith("--") and is_at_margin:
            comments.append(line)
            continue
        if not is_at_margin:
            if current is not None:
                current.lines += comments + [line]
                comments = []
            continue
        name = HEAD.match(line)[1]
        if current is None or name != current.name:
            current = Definition(name, comments)
            found.append(current)
            comments = []
        current.lines += comments + [line]
        comments, began = [], True
    return head, found


def sections():
    """The sections of THEOREM.md that count definitions: heading, the two numbers, and the rows (crate, file, path, names, words).

    A name with a link behind it stands in that file."""
    found, heading = [], ""
    for line in (TOP / "docs/THEOREM.md").read_text().splitlines():
        if line.startswith("## "):
            heading = line[3:]
        if (counts := SECTION.match(line)) is not None:
            found.append((heading, int(counts[1]), int(counts[2]), []))
        if found and found[-1][0] == heading and (row := ROW.match(line)) is not None:
            place, elsewhere = (TOP / "docs" / row[3]).resolve(), re.findall(r"`([^`]+)` \(\[\w+\]\((\S+?)\)\)", row[4])
            names = [it for it in re.findall(r"`([^`]+)`", row[4]) if it not in dict(elsewhere)]
            found[-1][3].append((row[1], row[2], place, names, row[5]))
            for name, link in elsewhere:
                at = (TOP / "docs" / link).resolve()
                found[-1][3].append((at.parent.parent.name, at.stem, at, [name], row[5]))
    return found


def rust_types():
    """The Rust types that THEOREM.md names behind layer 1, each with its crate."""
    text = (TOP / "docs/THEOREM.md").read_text()
    line = re.search(r"(?m)^Rust types: (.*)$", text)[1]
    return [(crate, name) for part, crate in re.findall(r"([^()]*)\((\w+)\)", line) for name in re.findall(r"`(\w+)`", part)]
