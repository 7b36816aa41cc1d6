#!/usr/bin/env python3
"""design-count.py [-v] [ROOT]: the places of docs/DESIGN-PASS.md, counted in crates/*/src/*.rt, and for point 8 in crates/*/proofs.

Without ROOT it counts in the checkout that it stands in. It prints a line for each point and one for each kind of place in it; with -v every place,
as FILE:LINE FUNCTION and what was seen there. It goes by the text and not by the meaning: a row is a place to look, and the page says what each is.
Lines that begin with `+` are looked at beside the point and are not in its count."""
import glob
import os
import re
import sys
from collections import defaultdict

PROGRAMS = re.compile(r"crates/(\w+_main|hex_text|below)/")
# parameters that are a number or a bool where a kind is meant
KINDS = "direction|which|bits|wide|decrypts|times|form|from|rows|kept|apart"
WIDTHS = re.compile(r"\b(w32|w64|blocks32|blocks64)\b")


def match_end(text, at, open_, close):
    """The place after the bracket that closes the one at `at`."""
    deep = 0
    for i in range(at, len(text)):
        if text[i] == open_:
            deep += 1
        elif text[i] == close:
            deep -= 1
            if deep == 0:
                return i + 1
    return len(text)


def split_top(text, mark):
    """Cut at `mark` outside of all brackets."""
    parts, deep, last = [], 0, 0
    for i, c in enumerate(text):
        if c in "([{<":
            deep += 1
        elif c in ")]}" or (c == ">" and text[i - 1] != "-"):
            deep -= 1
        elif deep == 0 and text.startswith(mark, i):
            parts.append(text[last:i])
            last = i + len(mark)
    return [p.strip() for p in parts + [text[last:]] if p.strip()]


def blank_comments(text):
    return re.sub(r"//[^\n]*", lambda m: " " * len(m.group()), text)


def flat(text):
    return re.sub(r"\s+", " ", text).strip()


class Fn:
    def __init__(self, path, raw, text, start):
        self.path, self.crate = path, path.split("/")[1]
        self.line = text.count("\n", 0, start) + 1
        m = re.compile(r"fn\s+(\w+)").search(text, start)
        self.name = m.group(1)
        self.pub = bool(re.search(r"\bpub\b[^\n]*$", text[:m.start()].rsplit("\n", 1)[-1] + " "))
        at = m.end()
        if text[at] == "<":
            at = match_end(text.replace("->", "--"), at, "<", ">")
        stop = match_end(text, at, "(", ")")
        self.params = []
        for p in split_top(text[at + 1:stop - 1], ","):
            name, _, kind = p.partition(":")
            self.params.append((name.replace("mut ", "").strip(), flat(kind)))
        self.clauses, i, head = [], stop, None
        while True:
            j = min((k for k in (text.find("{", i), text.find(";", i)) if k >= 0), default=len(text) - 1)
            # `;` within the array type of the answer
            while text[j] == ";" and text.count("[", i, j) > text.count("]", i, j):
                j = min((k for k in (text.find("{", j + 1), text.find(";", j + 1)) if k >= 0), default=len(text) - 1)
            word = re.search(r"(requires|ensures|measure|decreases)(\s+[\w-]+)?\s*$", text[i:j])
            if text[j] == "{" and word:
                head = text[stop:i + word.start()] if head is None else head
                end = match_end(text, j, "{", "}")
                self.clauses.append((word.group(1), text[j + 1:end - 1]))
                i = end
                continue
            head = text[stop:j] if head is None else head
            break
        self.answer = flat(head.replace("->", "").split("where")[0])
        self.body_at = j
        self.end = match_end(text, j, "{", "}") if text[j] == "{" else j + 1
        self.body = text[j:self.end]
        self.text = text[start:self.end]
        lines, k = raw.split("\n"), self.line - 2
        self.said = ""
        while k >= 0 and re.match(r"\s*(//|#\[)", lines[k]):
            self.said = lines[k] + "\n" + self.said
            k -= 1

    def where(self):
        return f"{self.path}:{self.line} {self.name}"

    def body_line(self):
        """The line in which the body begins."""
        return self.line + self.text.count("\n", 0, len(self.text) - len(self.body))

    def wide(self):
        """The function but for its width: the twins of two widths are one."""
        return self.crate, WIDTHS.sub("wNN", self.path), self.name


def functions(path, raw, text):
    return [Fn(path, raw, text, m.start()) for m in re.finditer(r"\bfn\s+\w+", text)]


# ---- 1: kinds and refusals
def kinds(fns, texts):
    found = defaultdict(list)
    for path, text in texts.items():
        for m in re.finditer(r"\benum\s+(\w+)[^{]*", text):
            body = text[m.end():match_end(text, m.end(), "{", "}")]
            variants = split_top(body[1:-1], ",")
            holds = [v for v in variants if re.search(r"[({]", re.sub(r"#\[[^\]]*\]", "", v))]
            if len(variants) == 2 and holds:
                found["own enum of the shape of Option or Result"].append(f"{path}:{text.count(chr(10), 0, m.start()) + 1} {m.group(1)}")
        for m in re.finditer(r"\bstruct\s+(\w+)[^{;(]*\{", text):
            body = text[m.end():match_end(text, m.end() - 1, "{", "}") - 1]
            fields = re.findall(r"(\w+)\s*:\s*([^,\n]+)", body)
            flags = [f for f, t in fields if t == "bool" or re.search(r"result\." + f + r" ≤ 1\b", text)]
            if flags and len(fields) > len(flags):
                found["struct with a flag beside a value"].append(
                    f"{path}:{text.count(chr(10), 0, m.start()) + 1} {m.group(1)}: {' '.join(flags)}")
    refuse = {f.name for f in fns if any("answers result" in c for _, c in f.clauses) and f.answer == "u32"}
    grew = True
    while grew:
        more = {f.name for f in fns if f.answer == "u32" and any(re.search(r"\b" + n + r"\b", f.body) for n in refuse)}
        grew, refuse = not more <= refuse, refuse | more
    for f in fns:
        said = f.said.replace("\n//", "")
        if f.answer == "u32" and f.name in refuse:
            found["number for a refusal (-> u32)"].append(f.where())
        elif f.answer in ("u8", "u32", "u64", "usize"):
            if any(re.search(r"result ≤ [12]\b", c) for _, c in f.clauses):
                found["number for yes or no, or for how many"].append(f.where())
            elif re.search(r"_ => 0\b", f.body) and "match" in f.body or re.search(r"0 where|, or the text's length", said):
                found["number that stands for none"].append(f.where())
        elif re.search(r"empty where", said):
            found["number that stands for none"].append(f.where() + ": empty slice")
        elif f.answer == "bool" and any("&mut" in t for _, t in f.params):
            found["bool for a refusal, beside what is lent"].append(f.where())
        if re.search(r"\bif [^{]*\bfailing (==|>) 0", f.body):
            found["number that stands for none"].append(f.where() + ": failing, 0 for none")
        for name, kind in f.params:
            if kind == "bool" or (re.fullmatch(r"u8|u32|usize", kind) and re.fullmatch(KINDS, name)):
                found["parameter that is a number or a bool for a kind"].append(f"{f.where()}: {name}: {kind}")
    return found


# ---- 2: twins
def same_but_for_numbers(text):
    text = re.sub(r"((?:_[0-9A-F]{2})+)\b", "_#", flat(blank_comments(text)))
    text = re.sub(r"\b(Word|W)\b", "T", text)
    text = re.sub(r"0x[0-9a-fA-F_]+|\d[\d_]*", "#", text)
    return re.sub(r"\bu#|\busize\b", "T", text)


def same_but_for_calls(f):
    text = same_but_for_numbers(f.text)
    text = re.sub(r"\b[a-z_#][\w#]*(::[\w#]+)*(?=\()", "CALL", text)
    for _, c in f.clauses:
        c = same_but_for_numbers(c)
        text = text.replace(c, re.sub(r"\b(?!result|length|old|new|now)[A-Za-z_#][\w#]*", "NAME", c))
    return text.replace(same_but_for_numbers(f.name), "SELF")


def twins(fns, texts):
    found, groups = defaultdict(list), defaultdict(list)
    for f in fns:
        groups[f.crate, same_but_for_numbers(f.text)].append(f)
    firsts = []
    for group in groups.values():
        firsts.append(group[0])
        for f in group[1:]:
            kind = "function at another width, by its module" if f.wide() == group[0].wide() else "function at another number or width, by its name"
            found[kind].append(f"{f.where()} ~ {group[0].where()}")
    named = {}
    for f in firsts:
        other = named.setdefault(f.wide(), f)
        if other is not f:
            found["function of the same name at another width, in another text"].append(f"{f.where()} ~ {other.where()}")
    calls = defaultdict(list)
    for f in firsts:
        if f.body.startswith("{"):
            calls[f.crate, same_but_for_calls(f)].append(f)
    for group in calls.values():
        for f in group[1:]:
            found["function that differs in what it calls"].append(f"{f.where()} ~ {group[0].where()}")
    kinds_ = defaultdict(list)
    for path, text in texts.items():
        for m in re.finditer(r"^(pub )?(struct|enum|const) (\w+)[^\n]*", text, re.M):
            crate, line = path.split("/")[1], text.count("\n", 0, m.start()) + 1
            kinds_[crate, m.group(2), m.group(3)].append(f"{path}:{line} {m.group(2)} {m.group(3)}")
    for (_, kind, _), group in kinds_.items():
        for place in group[1:]:
            found["type or constant at another width"].append(f"{place} ~ {group[0]}")
    across = defaultdict(list)
    for f in firsts:
        if len(f.body) > 4:
            across[re.sub(r"^pub |\bpub fn", "fn", same_but_for_numbers("fn SELF" + f.text.split(f.name, 1)[1]))].append(f)
    for group in across.values():
        for f in group[1:]:
            if f.crate != group[0].crate:
                found["+ function that another crate has"].append(f"{f.where()} ~ {group[0].where()}")
    return found


# ---- 3: loops
def loops(fns, texts):
    found = defaultdict(list)
    for f in fns:
        base = f.body_line()

        def place(i, what, f=f, base=base):
            return f"{f.path}:{base + f.body.count(chr(10), 0, i)} {f.name}: {what}"

        spans = []
        for m in re.finditer(r"\bwhile\s+(\w+)\s*[<>!]=?[^{]*|\bloop\s*(?=\{)|\bfor\s+(\w+)\s+in\s+([^{]*)", f.body):
            end = match_end(f.body, f.body.index("{", m.end() - 1), "{", "}")
            inside, head = f.body[m.end():end], flat(m.group())
            if m.group(1):
                found["while that counts"].append(place(m.start(), head))
                spans.append((m.start(), end))
            elif m.group(2):
                name = m.group(2)
                names = {name} | {v for v, e in re.findall(r"let (?:mut )?(\w+)(?:: \w+)? = ([^;]*);", inside) if re.search(r"\b%s\b" % name, e)}
                names |= {v for v, e in re.findall(r"let (\w+) = ([^;]*);", inside) if set(re.findall(r"\w+", e)) & names}
                indexed = any(set(re.findall(r"\w+", x)) & names for x in re.findall(r"\w\[([^\]]*)\]", inside))
                by_text = any(re.search(r"\b%s\b" % n, inside) for n in names)
                if ".." not in m.group(3):
                    continue
                if indexed or (name != "_" and ".len()" in m.group(3)):
                    found["for over indices of a buffer"].append(place(m.start(), head))
                elif name != "_" and by_text:
                    found["+ for over numbers that index nothing here"].append(place(m.start(), head))
                else:
                    found["+ for that counts turns"].append(place(m.start(), head))
                spans.append((m.start(), end))
            elif re.search(r"\b\w+ [+-]= 1;", inside):
                found["loop that counts"].append(place(m.start(), "loop"))
                spans.append((m.start(), end))
        for m in re.finditer(r"\b\w+ [+-]= [^;]*;", f.body):
            if any(a <= m.start() < b for a, b in spans):
                found["+ a step of a counter in such a loop"].append(place(m.start(), m.group()))
            else:
                found["+ a step elsewhere"].append(place(m.start(), m.group()))
        for m in re.finditer(r"\[\s*([^\[\]]*\[\s*0\s*\](?:[^\[\]]|\[[^\]]*\])*)\]", f.body):
            items = [re.sub(r"\d+", "#", x) for x in split_top(m.group(1), ",")]
            if len(items) >= 8 and len(set(items)) == 1:
                found["+ array written out, element by element"].append(place(m.start(), flat(m.group())[:40] + ".."))
    return found


# ---- 4: written by hand
def by_hand(fns, texts):
    found = defaultdict(list)
    for f in fns:
        copies = len(re.findall(r"\w+\[[^\]]*\] = \w+\[[^\]]*\];", f.body))
        written = re.search(r"\[\s*(\w+)\[0\],\s*\1\[1\],\s*\1\[2\]", f.body)
        if copies >= 3 or written or (copies and re.search(r"\b(for|while)\b", f.body)):
            found["copy, element by element"].append(f.where())
        elif re.match(r"copy", f.name):
            found["copy, by a function of our own"].append(f.where())
        if re.search(r"<< 8\)", f.body) and re.search(r"<< 16\)", f.body):
            found["from_le_bytes spelled"].append(f.where())
        if re.search(r">> 8\) % 256\) as u8", f.body):
            found["to_le_bytes spelled"].append(f.where())
        if re.search(r"number\(|% 4294967296|b'0'\.\.=b'9'|digit\(|value << 4", f.body) or f.name == "number":
            found["digits read by hand"].append(f.where())
        if re.match(r"(print|say|say_\w+|gap|report)$", f.name):
            found["printing by hand"].append(f.where())
        elif re.search(r"\bsay(_count)?\(", f.body):
            found["+ function that prints by say"].append(f.where())
        if re.match(r"(same|eq|equal|equals|less|compare|cmp|clone)$", f.name):
            found["equality or order by hand"].append(f.where())
    for path, text in texts.items():
        for m in re.finditer(r"(#\[derive\(([^)]*)\)\]\s*)?(pub )?(struct|enum) (\w+)", text):
            if not re.search("Copy|Clone|PartialEq|Debug", m.group(2) or ""):
                found["+ type that derives none of Clone, Copy, PartialEq, Debug"].append(
                    f"{path}:{text.count(chr(10), 0, m.start(4)) + 1} {m.group(5)}: {m.group(2) or 'nothing'}")
    return found


# ---- 5: facts and parameters that travel together
def facts_of(clause):
    clause = re.sub(r"\.(old|new|now)\b", "", flat(clause))
    clause = re.sub(r"\b(w32|w64)\b", "w", clause)
    parts = split_top(clause, "×")
    out = []
    for p in parts:
        while p.startswith("(") and match_end(p, 0, "(", ")") == len(p):
            p = p[1:-1].strip()
        out += facts_of(p) if "×" in p and len(split_top(p, "×")) > 1 else [p]
    return out


def together(fns, texts):
    found, facts = defaultdict(list), defaultdict(list)
    for f in fns:
        for fact in {x for kind, c in f.clauses if kind == "requires" for x in facts_of(c)}:
            facts[fact].append(f)
    for fact, who in sorted(facts.items(), key=lambda x: (-len(x[1]), x[0])):
        if len(who) >= 3:
            least = len({f.wide() for f in who})
            kind = "fact in three or more functions" if least >= 3 else "fact in three or more only as both widths ask it"
            found[kind].append(f"{fact}: {len(who)} functions, {least} but for the width: " + ", ".join(f.path.split('/', 1)[1] + " " + f.name for f in who))
    sets = []
    for f in fns:
        here = {(n, re.sub(r"u32\b|u64\b|\bWord\b|\bW\b", "T", re.sub(r"&mut |&", "&", t))) for n, t in f.params if n not in ("rt", "self", "&self")}
        sets.append((f, frozenset(here)))
    groups = {}
    for i, (_, a) in enumerate(sets):
        for _, b in sets[i + 1:]:
            both = a & b
            if len(both) >= 2:
                groups[both] = [f for f, s in sets if both <= s]
    for group, who in sorted(groups.items(), key=lambda x: (-len(x[0]), -len(x[1]), sorted(x[0]))):
        least = len({f.wide() for f in who})
        if least >= 3:
            found["parameters that travel together"].append(
                " + ".join(sorted(n for n, _ in group)) + f": {len(who)} functions, {least} but for the width: "
                + ", ".join(f.path.split('/', 1)[1] + " " + f.name for f in who))
    return found


# ---- 6: buffers with a length beside them
def buffers(fns, texts):
    found = defaultdict(list)
    for f in fns:
        slices = [n for n, t in f.params if re.match(r"&(mut )?(\[|'?\w* ?\[)", t)]
        for n, t in f.params:
            if t != "usize":
                continue
            said = " ".join(c for _, c in f.clauses)
            for s in slices:
                if re.search(r"\b%s\[(0)?\.\.%s\]|\b%s\[%s\.\.\]" % (s, n, s, n), f.body):
                    found["buffer with a length beside it"].append(f"{f.where()}: {s}, {n}")
                elif re.search(r"\b%s\[[^\]]*\b%s\b[^\]]*\]" % (s, n), f.body) or re.search(
                        r"let (\w+) = [^;]*\b%s\b[^;]*;(.|\n)*\b%s\[[^\]]*\b\1\b" % (n, s), f.body):
                    found["buffer with an offset beside it"].append(f"{f.where()}: {s}, {n}")
                elif n == "n" and s in ("schedule", "rkeys", "part"):
                    found["buffer with a number beside it that its length gives"].append(f"{f.where()}: {s}, {n}")
        for m in re.finditer(r"let mut (\w+) = (?:\[[^\]]*\]|\w+(?:::\w+)*\([^;]*\));", f.body):
            used = re.search(r"&(?:mut )?%s\[(?:0)?\.\.(\w+)\]" % m.group(1), f.body)
            if used:
                found["array of which the front is used"].append(f"{f.where()}: {m.group(1)}, {used.group(1)}")
        if re.search(r"\bmid\b|\blow\b.*\bhigh\b|binary", f.body):
            found["sorted list searched by hand"].append(f.where())
    for path, text in texts.items():
        for m in re.finditer(r"\bstruct\s+(\w+)[^{;(]*\{", text):
            body = text[m.end():match_end(text, m.end() - 1, "{", "}")]
            rows = re.findall(r"(\w+)\s*:\s*(\[[^\]]*\]|Vec<[^>]*>)", body)
            if len(rows) >= 2:
                found["+ struct of two arrays"].append(f"{path}:{text.count(chr(10), 0, m.start()) + 1} {m.group(1)}")
    return found


# ---- 7: switches on the step to run
def switches(fns, texts):
    found = defaultdict(list)
    for f in fns:
        base = f.body_line()
        for m in re.finditer(r"\b(if|match) ([^{]*)\{", f.body):
            cond = m.group(2)
            if "let " in cond or (m.group(1) == "if" and not re.search(r"\b(" + KINDS + r"|n % 4|r % 4)\b", cond)):
                continue
            end = match_end(f.body, m.end() - 1, "{", "}")
            inside = f.body[m.end():end - 1]
            place = f"{f.path}:{base + f.body.count(chr(10), 0, m.start())} {f.name}: {m.group(1)} {flat(cond)}"
            call = r"([a-z_]\w*(?:::\w+)*)(?:::<[^>]*>)?\("
            if m.group(1) == "match":
                arms = re.findall(r"=>\s*\{?\s*" + call, inside)
                if len(set(arms)) >= 2:
                    found["match that chooses a function"].append(place)
                elif re.fullmatch(KINDS, flat(cond)):
                    found["match that chooses a term of one function"].append(place)
                continue
            if "&&" in cond and re.search(call, cond):
                found["if that chooses a function"].append(place)
                continue
            then = re.findall(call, inside)
            other = f.body[end:].lstrip()
            if other.startswith("else"):
                at = other.index("{")
                other = other[at:match_end(other, at, "{", "}")]
            elif "return" not in inside and not f.body[:m.start()].rstrip().endswith("else"):
                if then:
                    found["if that chooses a step"].append(place)
                continue
            if then and set(then) != set(re.findall(call, other)[:len(then)]) or (then and flat(inside) != flat(other)):
                found["if that chooses a function"].append(place)
        if re.search(r"\bfn\(|\[fn|\bdyn\b|Box<", f.text):
            found["table of functions, fn pointer or dyn"].append(f.where())
    return found


# ---- 8: proofs
def items(text):
    """What stands at the top of a proof file: each name with its type and its answer."""
    out, now = [], []
    for line in text.split("\n"):
        if re.match(r"(--|use |pub use |mod |pub mod )", line) or not line.strip():
            if now:
                out.append("\n".join(now))
            now = []
            continue
        now.append(line)
    if now:
        out.append("\n".join(now))
    return [x for x in out if len(x) > 3]


def proofs(root):
    found, sums = defaultdict(list), []
    paths = sorted(p for p in glob.glob(os.path.join(root, "crates/*/proofs/**/*.antt"), recursive=True))
    lines = defaultdict(int)
    answers, texts = defaultdict(list), defaultdict(list)
    for full in paths:
        path = os.path.relpath(full, root)
        with open(full, encoding="utf-8") as f:
            text = f.read()
        name = os.path.basename(path)
        kind = name if name in ("Answers.antt", "Invariants.antt") and path.count("/") > 3 else "laws"
        kind = "laws" if kind == "Answers.antt" and path.count("/") == 3 else kind
        found[{"Answers.antt": "+ file of answers", "Invariants.antt": "+ file of invariants", "laws": "+ file of laws"}[kind]].append(path)
        lines[kind] += text.count("\n")
        if kind == "laws":
            continue
        for item in items(text):
            first = item.split("\n")[0].split(" ")[:2]
            flat_ = re.sub(r"\b(w32|w64)\b", "w", flat(item))
            flat_ = re.sub(r"\d+", "#", flat_)
            answers[path.split("/")[1], flat_].append(f"{path} {' '.join(first).replace('pub ', '')}")
        body = "\n".join(re.sub(r"\d+", "#", x) for x in items(text))
        texts[path.split("/")[1], body].append(path)
    for group in answers.values():
        for place in group[1:]:
            found["answer or invariant whose text stands before but for numbers"].append(f"{place} ~ {group[0]}")
    for group in texts.values():
        for place in group[1:]:
            found["+ file whose text stands before but for numbers"].append(f"{place} ~ {group[0]}")
    for kind, n in sorted(lines.items()):
        sums.append(f"lines of {kind}: {n}")
    sums.append(f"lines of proofs: {sum(lines.values())}")
    return found, sums


def show(number, title, found, verbose, sums=()):
    count = sum(len(v) for k, v in found.items() if not k.startswith("+"))
    print(f"{number}. {title}: {count}")
    for line in sums:
        print(f"     {line}")
    for kind, places in sorted(found.items(), key=lambda x: x[0].lstrip("+ ") if not x[0].startswith("+") else "~" + x[0]):
        by = defaultdict(int)
        for p in places:
            m = re.match(r"crates/(\w+)/", p)
            by[m.group(1) if m else ""] += 1
        crates = ", ".join(f"{c} {n}" for c, n in sorted(by.items())) if "" not in by else ""
        print(f"   {kind}: {len(places)}" + (f" ({crates})" if crates else ""))
        if verbose:
            for p in places:
                print(f"     {p}")


def main():
    args = [a for a in sys.argv[1:] if a != "-v"]
    verbose = "-v" in sys.argv
    root = args[0] if args else os.path.dirname(os.path.dirname(os.path.abspath(__file__)))
    texts, fns = {}, []
    for full in sorted(glob.glob(os.path.join(root, "crates/*/src/**/*.rt"), recursive=True)):
        path = os.path.relpath(full, root)
        with open(full, encoding="utf-8") as f:
            raw = f.read()
        texts[path] = blank_comments(raw)
        fns += functions(path, raw, texts[path])
    of_programs = sum(1 for f in fns if PROGRAMS.match(f.path))
    print(f"{len(texts)} files, {sum(t.count(chr(10)) for t in texts.values())} lines, {len(fns)} functions ({of_programs} of programs)")
    show(1, "own Options and Results, flags, numbers for kinds or refusals", kinds(fns, texts), verbose)
    show(2, "twins, each beyond the first", twins(fns, texts), verbose)
    show(3, "loops that count an index by hand", loops(fns, texts), verbose)
    show(4, "equality, order, copying, conversion, printing by hand", by_hand(fns, texts), verbose)
    show(5, "facts and parameters that stand in three or more functions", together(fns, texts), verbose)
    show(6, "buffers with a length or an offset beside them", buffers(fns, texts), verbose)
    show(7, "switches on which step to run, tables of functions", switches(fns, texts), verbose)
    found, sums = proofs(root)
    show(8, "proofs: answers that stand twice", found, verbose, sums)


if __name__ == "__main__":
    main()
