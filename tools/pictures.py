#!/usr/bin/env python3
"""Draws docs/layout.svg, docs/speed.svg and docs/crates.svg: tools/pictures.py [--check]

The layout is drawn from docs/SCOPE.md's rule (`place` below), the speed from docs/SPEED.md's table, the crates from
crates.txt and the lines of PROVES below. With --check nothing is written; it fails where a picture is not what would be
drawn now.
"""
import sys
from html import escape
from pathlib import Path

TOP = Path(__file__).resolve().parent.parent
DOCS = TOP / "docs"
INK, SOFT, LINE, PAPER = "#1f2733", "#5b6675", "#c5ccd6", "#ffffff"
SLOTS = ["#9cc4ec", "#f5d67a", "#a3d9a5", "#f2a9b4"]  # light enough for dark text on them
STRONG = ["#1f6fb5", "#b8860b", "#2e8b3a", "#c2405a"]


class Picture:
    """SVG text, line by line, on paper of its own: it reads the same on a light page and on a dark one."""

    def __init__(self, width, height, title):
        self.width, self.height, self.parts = width, height, []
        self.rect(0, 0, width, height, PAPER, LINE, 10)
        self.title = title

    def rect(self, x, y, w, h, fill, stroke="none", radius=0, width=1.0):
        inset = width / 2 if stroke != "none" else 0
        self.parts.append(
            f'<rect x="{x + inset:g}" y="{y + inset:g}" width="{w - 2 * inset:g}" height="{h - 2 * inset:g}" rx="{radius:g}" '
            f'fill="{fill}" stroke="{stroke}" stroke-width="{width:g}"/>'
        )

    def text(self, x, y, text, size=14, fill=INK, anchor="start", weight="normal", family="sans"):
        fonts = {"sans": "Helvetica, Arial, sans-serif", "mono": "DejaVu Sans Mono, Menlo, Consolas, monospace"}[family]
        self.parts.append(
            f'<text x="{x:g}" y="{y:g}" font-family="{fonts}" font-size="{size:g}" font-weight="{weight}" fill="{fill}" '
            f'text-anchor="{anchor}">{escape(text)}</text>'
        )

    def cell(self, x, y, w, h, fill, text, size, family, frame):
        self.rect(x, y, w, h, fill, PAPER, width=2)
        if frame:
            self.rect(x, y, w, h, "none", frame, width=2.5)
        self.text(x + w / 2, y + h / 2 + size * 0.36, text, size, anchor="middle", family=family)

    def path(self, d, stroke=SOFT, width=1.5):
        self.parts.append(f'<path d="{d}" fill="none" stroke="{stroke}" stroke-width="{width:g}"/>')

    def svg(self):
        head = (
            f'<svg xmlns="http://www.w3.org/2000/svg" viewBox="0 0 {self.width} {self.height}" width="{self.width}" '
            f'height="{self.height}" role="img" aria-label="{escape(self.title, quote=True)}">'
        )
        return "\n".join([head, f"<title>{escape(self.title)}</title>", *self.parts, "</svg>", ""])


# ---- the layout


def place(row_bits, n, slot):
    """docs/SCOPE.md, "Layout": the bit, of each of the eight words, that belongs to byte n of the slot's block."""
    row, column = n % 4, n // 4
    return row_bits * row + row_bits // 4 * column + slot


def layout():
    picture = Picture(1000, 790, "Which bit of which word holds which byte of which block")
    picture.text(30, 40, picture.title, 20, weight="bold")
    picture.text(30, 64, "A batch is eight words, and word p holds bit p of every byte: bit 0 of all bytes is in word 0, bit 7 in word 7.", 14, SOFT)
    framed, value = (2, 6), 0x04  # case P3 of docs/SCOPE.md: block 2, byte 6 is 04

    def batch(top, bits):
        row_bits, slots = bits // 4, bits // 16
        side, cell, gap, left = 24, 128 // slots, 18, 346
        picture.text(30, top, f"{bits}-bit words: {slots} blocks", 16, weight="bold")
        picture.text(left, top, "the bits of each word by number, for each byte block by block", 14, SOFT)
        for slot in range(slots):
            x, y = 30 + slot % 2 * (4 * side + 34), top + 44 + slot // 2 * (4 * side + 44)
            picture.text(x, y - 8, f"block {slot}", 13, STRONG[slot], weight="bold")
            for n in range(16):
                frame = INK if bits == 64 and (slot, n) == framed else None
                picture.cell(x + n // 4 * side, y + n % 4 * side, side, side, SLOTS[slot], str(n), 11, "sans", frame)
        for n in range(16):
            row, column = n % 4, n // 4
            x, y = left + column * (128 + gap), top + 40 + row * 60
            picture.text(x + 64, y, f"byte {n}", 11, SOFT, "middle")
            for slot in range(slots):
                frame = INK if bits == 64 and (slot, n) == framed else None
                bit = str(place(row_bits, n, slot))
                picture.cell(x + slot * cell, y + 6, cell, 32, SLOTS[slot], bit, 13, "mono", frame)

    batch(104, 64)
    slot, n = framed
    bit, p = place(16, n, slot), value.bit_length() - 1
    picture.rect(30, 398, 940, 44, "#f3f5f8", radius=6)
    picture.text(
        44,
        425,
        f"Framed: byte {n} is row {n % 4}, column {n // 4}; in block {slot} it has bit 16·{n % 4} + 4·{n // 4} + {slot} = {bit}. "
        f"If it is {value:02x}, bit {p} is set: word {p} is {1 << bit:016x}.",
        14,
    )
    batch(490, 32)
    return picture.svg()


# ---- the speed


def table():
    rows, inside = [], False
    for line in (DOCS / "SPEED.md").read_text(encoding="utf-8").splitlines():
        if line.startswith("| | for a |"):
            inside = True
        if inside and not line.startswith("|"):
            break
        if inside and not line.startswith("|---"):
            rows.append([cell.strip() for cell in line.strip("|").split("|")])
    if len(rows) < 2:
        sys.exit("pictures: docs/SPEED.md has no table that begins with '| | for a |'")
    names = rows[0][2:-1]
    return names, [(row[0], row[1], [float(cell) for cell in row[2:-1]], row[-1]) for row in rows[1:]]


def speed():
    names, rows = table()
    colours = {"Rust": "#e0a458", "ours": "#1f6fb5", "BearSSL": "#b7bec9"}
    rest = iter(["#7fb08f", "#9a8bc7", "#c9b6d9"])
    colours.update({name: next(rest) for name in names if name not in colours})
    bar, gap = 17, 22
    group = bar * len(names) + gap
    units = [unit for unit in dict.fromkeys(row[1] for row in rows)]
    height = 118 + sum(34 + group * sum(row[1] == unit for row in rows) for unit in units)
    picture = Picture(1000, height, "Nanoseconds for a block and for a key, ours beside others")
    picture.text(30, 40, "Time, in nanoseconds: shorter is faster", 20, weight="bold")
    picture.text(30, 64, "docs/SPEED.md has the figures and how they were taken", 14, SOFT)
    x = 30
    for name in names:
        picture.rect(x, 82, 14, 14, colours[name], radius=3)
        shown = {"Rust": "Rust, the crate's software backend"}.get(name, name)
        picture.text(x + 20, 94, shown, 13, weight="bold" if name == "ours" else "normal")
        x += 42 + 6.7 * len(shown)
    y = 116
    for unit in units:
        longest = max(max(row[2]) for row in rows if row[1] == unit)
        picture.text(30, y + 18, f"for a {unit}", 15, SOFT, weight="bold")
        y += 34
        for what, _, values, ratio in (row for row in rows if row[1] == unit):
            picture.text(30, y + bar * len(names) / 2 - 2, what, 14)
            picture.text(30, y + bar * len(names) / 2 + 15, f"ours / Rust {ratio}", 12, SOFT)
            for name, value in zip(names, values):
                long = max(2, 680 * value / longest)
                picture.rect(190, y + 1, long, bar - 3, colours[name], radius=2)
                weight = "bold" if name == "ours" else "normal"
                picture.text(196 + long, y + bar - 4.5, f"{value:.1f}", 12, INK if name == "ours" else SOFT, weight=weight)
                y += bar
            y += gap
    return picture.svg()


# ---- the crates

# What each crate is for, in a line or two; a crate that is not listed here stops the drawing.
PROVES = {
    "fips197": "FIPS-197 byte by byte; what undoes what, and the check of everything linear",
    "lanes": "where bytes stand in words, how a schedule is read; what a word program does to every slot",
    "sp800_38b": "CMAC of a block from SP 800-38B; doubling is one-to-one",
    "appendices": "the standards' worked examples, computed from the definitions",
    "outcome": "answers and refusals as values, and their laws",
    "calls": "what each public call promises; both sides of each limit, computed",
    "utils": "a word of either width as a number; swaps, rotations, and eight words as one value",
    "shift_rows": "the row shifts do that to every slot's block",
    "round_keys": "a key added, and the next one made, in every slot",
    "word": "packing and unpacking are the layout and its inverse",
    "sbox": "the circuits are the S-box XOR 63 and its inverse, in every slot",
    "mix_columns": "the four forms are MixColumns between row shifts, and their inverses",
    "schedule": "an expanded key reads as FIPS-197's round keys, in every slot, and nothing else does",
    "cipher": "full batches under any schedule words are Cipher, or InvCipher, slot by slot",
    "blocks": "any blocks too: full batches, and the part of one that is left",
    "cmac": "doubling, subkeys and the tag of a block are SP 800-38B's, in slot 0",
    "aes": "the public calls: which number, and every byte afterwards, for all inputs",
    "theorems": "what the promises imply, and the wrong programs that cannot meet them",
    "host": "the door, and the calls under their names for C, keep the same promises",
    "host_c": "the same nine functions, exported for C",
    "uses": "what a caller may build on the exported promises alone",
}
NO_CODE = {"fips197", "lanes", "sp800_38b", "appendices", "outcome", "calls", "theorems"}
# the row and the column of each, so that a line that passes a row passes it between boxes
PLACES = {
    "fips197": (0, 2), "outcome": (0, 5), "lanes": (1, 2), "sp800_38b": (1, 4.5), "utils": (2, 2), "appendices": (2, 3.5), "calls": (2, 5), "word": (3, 0),
    "shift_rows": (3, 1), "round_keys": (3, 2), "sbox": (3, 3), "mix_columns": (3, 4), "schedule": (4, 1), "cipher": (4, 2.5), "blocks": (5, 2),
    "cmac": (6, 4), "aes": (7, 2), "theorems": (7, 4.5), "host": (8, 2), "host_c": (9, 1), "uses": (9, 3),
}


def crates():
    deps = {}
    for line in (TOP / "crates.txt").read_text(encoding="utf-8").splitlines():
        line = line.split("#")[0]
        if ":" in line:
            name, rest = line.split(":", 1)
            deps[name.split()[0]] = rest.split()
    deps = {name: [d for d in ds if d in deps] for name, ds in deps.items()}
    users = {name: [u for u in deps if name in deps[u]] for name in deps}
    programs = [name for name in deps if (TOP / "crates" / name / "src" / "main.rt").exists()]
    aside = programs + [name for name in deps if users[name] and all(u in programs for u in users[name]) and name not in PROVES]
    shown = [name for name in deps if name not in aside]
    unknown = [name for name in shown if name not in PROVES or name not in PLACES]
    if unknown:
        sys.exit(f"pictures: say in PROVES and PLACES of tools/pictures.py what {', '.join(unknown)} proves, and where it stands")

    def reaches(a, b):
        return any(d == b or reaches(d, b) for d in deps[a])

    direct = {a: [d for d in deps[a] if not any(reaches(e, d) for e in deps[a] if e != d)] for a in shown}
    wide, tall, across, down = 186, 104, 14, 36
    size = 1246
    rows = 1 + max(PLACES[name][0] for name in shown)
    height = 100 + rows * (tall + down) + 58
    picture = Picture(size, height, "The crates and what each proves")
    picture.text(30, 40, "The crates and what each proves", 20, weight="bold")
    picture.text(30, 64, "Each rests on those above it that a line leads to.", 14, SOFT)
    kinds = [("definitions and laws, no code", "#fbe9c6"), ("code, each function proved", "#d7e8f8"), ("what C links", "#cdebd2")]
    x = 396
    for kind, colour in kinds:
        picture.rect(x, 51, 16, 16, colour, LINE, 3)
        picture.text(x + 23, 64, kind, 13, SOFT)
        x += 38 + 6.7 * len(kind)

    at = {name: (30 + PLACES[name][1] * (wide + across), 96 + PLACES[name][0] * (tall + down)) for name in shown}
    for name in shown:
        to_x, to_y = at[name]
        mine = sorted(direct[name], key=lambda d: at[d][0])
        for k, dep in enumerate(mine):
            from_x, from_y = at[dep]
            theirs = sorted((u for u in shown if dep in direct[u]), key=lambda u: at[u][0])
            a = from_x + wide * (theirs.index(name) + 1) / (len(theirs) + 1)
            b = to_x + wide * (k + 1) / (len(mine) + 1)
            top, low = from_y + tall, to_y
            turn = low - down # straight down beside the rows that it passes
            picture.path(f"M{a:g} {top:g} V{turn:g} C{a:g} {turn + 24:g} {b:g} {low - 24:g} {b:g} {low:g}")
    for name in shown:
        x, y = at[name]
        colour = kinds[2][1] if name == "host_c" else kinds[0][1] if name in NO_CODE else kinds[1][1]
        picture.rect(x, y, wide, tall, colour, LINE, 7)
        picture.text(x + 12, y + 22, name, 15, weight="bold")
        words, said = PROVES[name].split(), [""]
        for word in words:
            if len(said[-1]) + 1 + len(word) > 25:
                said.append("")
            said[-1] = (said[-1] + " " + word).strip()
        for k, text in enumerate(said):
            picture.text(x + 12, y + 41 + 15 * k, text, 12, SOFT)
    y = 96 + rows * (tall + down) - 14
    picture.rect(30, y, size - 60, 52, "#f3f5f8", LINE, 7)
    picture.text(44, y + 21, "programs over these, and what they share: proved safe, and run in the gate", 13, weight="bold")
    picture.text(44, y + 40, ", ".join(sorted(aside)), 13, SOFT)
    return picture.svg()


def main():
    check = sys.argv[1:] == ["--check"]
    if sys.argv[1:] and not check:
        sys.exit(__doc__)
    old = []
    for name, draw in (("layout", layout), ("speed", speed), ("crates", crates)):
        path, svg = DOCS / f"{name}.svg", draw()
        if not check:
            path.write_text(svg, encoding="utf-8")
        elif not path.exists() or path.read_text(encoding="utf-8") != svg:
            old.append(path.name)
    if old:
        sys.exit(f"pictures: not what tools/pictures.py draws now: {', '.join(old)}")
    print("pictures: docs/layout.svg, speed.svg and crates.svg are " + ("up to date" if check else "drawn"))


main()
