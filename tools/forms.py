"""Lists the places in crates/*/src/ that could take a newer form of the language, by point.

    python3 tools/forms.py [POINT] [--count]

Each point is a set of patterns over single lines, or, for twins, over the names of functions. What it lists are
candidates: docs/DESIGN-PASS.md says of each what became of it.
"""
import collections
import glob
import re
import sys

LINES = {
    "1 enums": r"^(pub(\(crate\))? )?enum ",
    "1 flags": r"\bbool\b",
    "1 numbers": r"const [A-Z_]+: u8|\b(state|code|holder): u(8|32)\b|\.number\(\)|-> u8$|as u8$|\((u8), u32",
    "3 loops": r"^\s*(for .* in |while |loop \{)",
    "4 passing on": r"(Ok|Some)\((\w+)\) => (Ok|Some)\(\2\)|(Err)\((\w+)\) => Err\(|Ok\(_\) => Ok|\?;$(?=\n\s*Ok\(\(\)\))|^\s*(\w+): \w+\.\w+,$|^\s*(\w+): self\.\w+,$",
    "4 conversions": r"fn (number|word|level|kind_code|moved_to|done|fresh|revalued|lease)\b|println!|print!|format!",
    "6 buffers": r"used: u8|\[u64; 20\]|\[u8; ROW_BYTES\]|Vec<|&'a mut \[|&mut \[|\[from|\bat\b.*\+",
    "7 switches": r"match (\(code|call|change|order|\*self|words|self)\b",
}


def sources():
    for path in sorted(glob.glob("crates/*/src/*.rt")):
        yield path, open(path).read().split("\n")


def every_line():
    for path, lines in sources():
        for at, line in enumerate(lines, 1):
            yield f"{path}:{at}", line


def matching(pattern):
    for place, line in every_line():
        m = re.match(pattern, line)
        if m:
            yield place, m


def by_line(pattern):
    for place, line in every_line():
        if re.search(pattern, line) and not line.lstrip().startswith("//") and "ghost" not in line.split("{")[0]:
            yield f"{place}: {line.strip()}"


def twins():
    """Functions of one name in several files."""
    where = collections.defaultdict(list)
    for place, m in matching(r"\s*(?:pub(?:\(crate\))? )?fn (\w+)"):
        where[m.group(1)].append(place)
    for name, places in sorted(where.items()):
        if len(places) > 1:
            yield f"{name}: {', '.join(places)}"


def facts():
    """Clauses that stand on three functions or more, in one crate."""
    seen = collections.defaultdict(list)
    for place, m in matching(r"\s*(requires|ensures)( \w+)? (\{.*\})"):
        seen[place.split("/")[1], m.group(1), m.group(3)].append(place)
    for (crate, kind, text), places in sorted(seen.items()):
        if len(places) > 2:
            yield f"{crate}: {len(places)} × {kind} {text}"


def parameters():
    """Functions with five parameters or more, the receiver counted."""
    for path, lines in sources():
        text = "\n".join(lines)
        for m in re.finditer(r"fn (\w+)(?:<[^(]*>)?\(([^)]*)\)", text):
            if len([p for p in m.group(2).split(",") if p.strip()]) > 4:
                yield f"{path}: {m.group(1)}"


POINTS = {name: (lambda pattern=pattern: by_line(pattern)) for name, pattern in LINES.items()}
POINTS["2 twins"] = twins
POINTS["5 facts"] = facts
POINTS["5 parameters"] = parameters


def main():
    asked = [a for a in sys.argv[1:] if not a.startswith("--")]
    for name, find in sorted(POINTS.items()):
        if asked and not any(name.startswith(a) for a in asked):
            continue
        found = list(find())
        print(f"{name}: {len(found)}")
        if "--count" not in sys.argv:
            print("\n".join("  " + place for place in found))


main()
