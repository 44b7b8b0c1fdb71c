"""Reads the files of crates/*/src for tools/places: the code by file, that is the text without comments, strings, clauses and ghost items, and the functions, types and constants in it."""
import collections
import re

INT = r"(?:[ui](?:8|16|32|64|128|size))"
CLAUSE = re.compile(r"\b(requires|ensures)\b[^{};]*\{")
LIMIT = re.compile(r"^(MAX|MIN|MOST)_|(^|_)(WORDS|BYTES|PLACES|WIDTH|LEN|ROOM|COUNT|STATED)$|^W$")
Place = collections.namedtuple("Place", "path line text")
Fn = collections.namedtuple("Fn", "crate path line name public params result clauses body comment last")
Type = collections.namedtuple("Type", "crate path line kind name parts")


def blank(text, pattern):
    return re.sub(pattern, lambda m: re.sub(r"[^\n]", " ", m[0]), text, flags=re.S)


def closing(text, i):
    """Behind the bracket that closes the one at i."""
    deep = 0
    for k in range(i, len(text)):
        deep += text[k] in "([{"
        deep -= text[k] in ")]}"
        if not deep:
            return k + 1
    return len(text)


def opening(text, i, signs):
    """The first of these signs from i on, outside of brackets."""
    while i < len(text) and text[i] not in signs:
        i = closing(text, i) if text[i] in "([{" else i + 1
    return i


def parts(text, sign=",", angles=True):
    """The text cut at each `sign` outside of brackets."""
    out, deep, start = [], 0, 0
    for k, c in enumerate(text):
        deep += c in "([{" or (angles and c == "<")
        deep -= c in ")]}" or (angles and c == ">" and text[k - 1] not in "-=")
        if c == sign and not deep:
            out.append(text[start:k])
            start = k + 1
    return [" ".join(p.split()) for p in out + [text[start:]] if p.strip()]


def arms(body):
    """The arms of a match: pattern and what it gives."""
    out, i = [], 0
    while (j := body.find("=>", i)) >= 0:
        pattern, k = body[i:j], j + 2
        k += len(body[k:]) - len(body[k:].lstrip())
        end = k
        while end < len(body) and body[end] != ",":
            block = body[end] == "{" and end == k
            end = closing(body, end) if body[end] in "([{" else end + 1
            if block:
                break
        out.append((" ".join(pattern.split()).lstrip(", "), body[k:end].strip()))
        i = end + (end < len(body) and body[end] == ",")
    return out


def line_at(text, i):
    return text.count("\n", 0, i) + 1


class Book:
    """What the files of crates/*/src hold: the code by file, functions, types, constants."""

    def __init__(self, root):
        self.root, self.code, self.fns, self.types, self.raw = root, {}, [], [], {}
        for path in sorted(p for p in root.glob("crates/*/src/**/*") if p.suffix in (".rt", ".rs")):
            self.read(path.relative_to(root).as_posix(), path.read_text(encoding="utf-8"))
        self.consts = [self.place(p, m.start(2)) for p, t in self.code.items() for m in re.finditer(rf"(?m)^(\s*(?:pub(?:\(\w+\))? )?)const (\w+): {INT} =", t) if not LIMIT.search(m[2])]
        names = sorted({re.search(r"const (\w+)", c.text)[1] for c in self.consts})
        self.number = rf"(?:(?<![\w.:])(?:\w+::)*(?:{'|'.join(names) or '(?!)'})\b(?!\s*:|::)|\b65_?53[67]\b)"

    def read(self, path, raw):
        text = blank(raw, r'//[^\n]*|/\*.*?\*/|b?"(?:[^"\\]|\\.)*"')
        text = blank(text, r"\bghost use\b[^;]*;")
        crate, self.raw[path] = path.split("/")[1], raw.split("\n")
        for m in list(re.finditer(r"\bghost \w+\s*[:=]\s*\{", text)):
            text = text[: m.start()] + blank(text[m.start() : closing(text, m.end() - 1)], r".+") + text[closing(text, m.end() - 1) :]
        for m in re.finditer(r"\bfn (\w+)", text):
            text = self.function(crate, path, text, m)
        self.code[path] = text
        for m in re.finditer(r"\b(struct|enum) (\w+)[^;{(]*\{", text):
            inside = blank(text[m.end() : closing(text, m.end() - 1) - 1], r"#\[[^\]]*\]")
            self.types.append(Type(crate, path, line_at(text, m.start()), m[1], m[2], parts(inside)))

    def function(self, crate, path, text, m):
        i, clauses, deep = m.end(), [], 0
        while text[i] != "(" or deep:
            deep += (text[i] == "<") - (text[i] == ">" and text[i - 1] != "-")
            i += 1
        end = closing(text, i)
        params, head = parts(text[i + 1 : end - 1]), opening(text, end, "{;")
        while (c := CLAUSE.search(text, end)) and c.start() < head:
            stop = closing(text, c.end() - 1)
            clauses.append((c[1], " ".join(text[c.end() : stop - 1].split())))
            text = text[: c.start()] + blank(text[c.start() : stop], r".+") + text[stop:]
            head = opening(text, end, "{;")
        result = re.match(r"\s*->\s*(.*?)\s*(?:\bwhere\b|$)", text[end:head], re.S)
        body = text[head : closing(text, head)] if text[head : head + 1] == "{" else ""
        line, above, k = line_at(text, m.start()), [], line_at(text, m.start()) - 2
        while k >= 0 and re.match(r"\s*(//|#)", self.raw[path][k]):
            above.append(self.raw[path][k])
            k -= 1
        public = bool(re.search(r"\bpub(\(\w+\))?(\s+(const|extern|unsafe))*\s*$", text[: m.start()]))
        self.fns.append(Fn(crate, path, line, m[1], public, params, result[1] if result else "", clauses, body, " ".join(above), line_at(text, head + len(body))))
        return text

    def place(self, path, i, note=""):
        line = line_at(self.code[path], i)
        return Place(path, line, note + self.raw[path][line - 1].strip())

    def find(self, pattern):
        return [self.place(p, m.start()) for p, t in self.code.items() for m in re.finditer(pattern, t)]

    def matches(self):
        """Each match: its place, its arms."""
        for p, t in self.code.items():
            for m in re.finditer(r"\bmatch\b[^{;]*\{", t):
                yield self.place(p, m.start()), arms(t[m.end() : closing(t, m.end() - 1) - 1])

    def loops(self, word):
        """Each loop that begins with a word: its place, its head, its body."""
        for p, t in self.code.items():
            for m in re.finditer(rf"\b{word}\b([^{{;]*)\{{", t):
                yield self.place(p, m.start()), m[1], t[m.end() : closing(t, m.end() - 1)]
