"""The second way of `places --other` to count points 1 to 3: by tokens, result types, callers and contracts, where tools/places goes by the text of bodies. It shares no code with it.

The file is cut into words, numbers and signs; comments, strings, ghost items and attributes go. A function is the word fn, its name, parameters, result, clauses and body, an item is found by
its brackets. An integer is a type of u8 .. u128, usize and signed ones.
1  signatures (not types) with a result that is the repository's own enum with one variant without a value or one named as a refusal; results and parameters that are a struct with a bool;
   functions whose answer some caller compares with a word in capitals; words in capitals in code besides where they are declared and imported, those of limits (MAX_..) left out; matches
   without the path of a variant as a pattern, that is on numbers, and `Refused(..)` as a pattern
2  functions whose contracts are the same when numbers, types and names of parameters are left out; functions of 24 signs at least whose signs and keywords are the same
3  for with .. in its head, by whether its bound is a length, a name or a number; while and loop; `+= 1` and `-= 1` below a loop; functions with a loop in them; iterators' methods called
t  today's forms, which no point asks to change: Option, Result, ?, methods, closures, impls of traits"""
import collections
import re

TOKEN = re.compile(r'//[^\n]*|/\*.*?\*/|b?"(?:[^"\\]|\\.)*"|b?\'(?:[^\'\\]|\\.)\'|[^\W\d]\w*|\d[\w]*(?:\.\d\w*)?|=>|->|::|\.\.=?|[-+*/%|&^]=|[=!<>]=|\S', re.S)
INTEGERS = {s + w for s in "ui" for w in ("8", "16", "32", "64", "128", "size")}
OPEN, SHUT = "([{", ")]}"
METHODS = {"iter", "iter_mut", "into_iter", "map", "filter", "fold", "any", "all", "position", "find", "zip", "enumerate", "rev", "take", "skip", "sum", "min", "max", "min_by_key", "max_by_key",
           "fill", "copy_from_slice", "contains", "chunks", "as_chunks", "as_chunks_mut", "split_at", "split_at_mut", "windows", "next", "last", "count", "for_each", "swap"}
Token = collections.namedtuple("Token", "text line")
Place = collections.namedtuple("Place", "path line text")
Fn = collections.namedtuple("Fn", "crate path line name params result clauses body")


def tokens(text):
    return [Token(m[0], text.count("\n", 0, m.start()) + 1) for m in TOKEN.finditer(text) if not m[0].startswith(("//", "/*"))]


def shut(ts, i):
    """The place of the bracket that shuts the one at i."""
    deep = 0
    for k in range(i, len(ts)):
        deep += (ts[k].text in OPEN) - (ts[k].text in SHUT)
        if deep == 0:
            return k
    return len(ts) - 1


def without_ghosts(ts):
    """The tokens without `use` lines, ghost items and attributes."""
    out, i = [], 0
    while i < len(ts):
        t = ts[i].text
        if t == "#" and ts[i + 1].text in "[!":
            i = shut(ts, i + 1 + (ts[i + 1].text == "!")) + 1
        elif t == "use" or (t == "ghost" and ts[i + 1].text == "use"):
            while ts[i].text != ";":
                i += 1
            i += 1
        elif t == "ghost":
            while ts[i].text != "{":
                i += 1
            i = shut(ts, i) + 1
        else:
            out.append(ts[i])
            i += 1
    return out


def listed(ts):
    """The items between commas."""
    out, deep = [[]], 0
    for t in ts:
        deep += (t.text in OPEN or t.text == "<") - (t.text in SHUT or t.text == ">")
        if t.text == "," and not deep:
            out.append([])
        else:
            out[-1].append(t)
    return [item for item in out if item]


def function(crate, path, ts, i):
    """The function whose word fn stands at i."""
    k, deep = i + 2, 0
    while ts[k].text != "(" or deep:
        deep += (ts[k].text == "<") - (ts[k].text == ">")
        k += 1
    end = shut(ts, k)
    params = [(item[-1].text if ":" not in [t.text for t in item] else item[[t.text for t in item].index(":") - 1].text, [t.text for t in item]) for item in listed(ts[k + 1 : end])]
    k, result, clauses = end + 1, [], []
    while ts[k].text not in "{;":
        if ts[k].text in ("requires", "ensures"):
            while ts[k].text != "{":
                k += 1
            clauses.append([t.text for t in ts[k : shut(ts, k) + 1]])
            k = shut(ts, k)
        else:
            last = shut(ts, k) if ts[k].text in "([" else k
            result += [t.text for t in ts[k : last + 1] if not clauses and t.text != "->"]
            k = last
        k += 1
    body = ts[k : shut(ts, k) + 1] if ts[k].text == "{" else []
    return Fn(crate, path, ts[i].line, ts[i + 1].text, params, result, clauses, body)


def read(root):
    """Functions, types (kind, name, items) and tokens by file."""
    fns, types, files = [], [], {}
    for path in sorted(p for p in root.glob("crates/*/src/**/*") if p.suffix in (".rt", ".rs")):
        name = path.relative_to(root).as_posix()
        ts = files[name] = without_ghosts(tokens(path.read_text(encoding="utf-8")))
        for i, t in enumerate(ts[:-1]):
            if t.text == "fn" and re.match(r"[^\W\d]", ts[i + 1].text):
                fns.append(function(name.split("/")[1], name, ts, i))
            elif t.text in ("struct", "enum"):
                k = i + 2
                while ts[k].text not in "{;(":
                    k += 1
                types.append((t.text, ts[i + 1].text, [[x.text for x in item] for item in listed(ts[k + 1 : shut(ts, k)])] if ts[k].text != ";" else []))
    return fns, types, files


def is_number(word):
    return re.fullmatch(r"[A-Z][A-Z0-9_]+", word) and not word.startswith("MAX_")


def of(fns):
    return [Place(f.path, f.line, f.name) for f in fns]


def in_groups(pairs):
    by = collections.defaultdict(list)
    for key, f in pairs:
        by[key].append(f)
    groups = [g for k, g in sorted(by.items()) if len(g) > 1]
    return [Place(f.path, f.line, f"[{k}] {f.name}") for k, g in enumerate(groups, 1) for f in g], len(groups)


def compared(fns):
    """Functions whose answer a caller compares with a word in capitals, at once or by a let."""
    names = set()
    for f in fns:
        text = " ".join(t.text for t in f.body)
        made = dict(re.findall(r"\blet (?:mut )?(\w+) = (?:\w+ :: )*(\w+) \(", text))
        for m in re.finditer(r"\b(\w+) (?:==|!=|<=|>=|<|>) (?:\w+ :: )*([A-Z][A-Z0-9_]+)\b|\b([A-Z][A-Z0-9_]+) (?:==|!=|<=|>=|<|>) (\w+)\b", text):
            names |= {made[x] for x in (m[1], m[4]) if x in made and is_number(m[2] or m[3])}
    return [f for f in fns if f.name in names and f.result[-1:] and f.result[-1] in INTEGERS]


def patterns(f):
    """Each match of a function: its line and the texts of its patterns."""
    for i, t in enumerate(f.body):
        if t.text == "match":
            k = i
            while f.body[k].text != "{":
                k += 1
            inside, deep, start, out = f.body[k + 1 : shut(f.body, k)], 0, 0, []
            for j, x in enumerate(inside):
                deep += (x.text in OPEN) - (x.text in SHUT)
                if x.text == "=>" and not deep:
                    out.append(" ".join(y.text for y in inside[start:j]).strip(" ,}"))
                if not deep and x.text in ",}":
                    start = j + 1
            yield t.line, out


def answers(fns, types, files):
    either = {n for kind, n, items in types if kind == "enum" and len(items) > 1 and any(len(i) > 1 for i in items) and (any(i[0] == "Refused" for i in items) or sum(len(i) == 1 for i in items) == 1)}
    flagged = {n for kind, n, items in types if kind == "struct" and len(items) > 1 and any(i[-1] == "bool" for i in items)}
    words = [Place(p, t.line, t.text) for p, ts in files.items() for i, t in enumerate(ts) if is_number(t.text) and ts[i - 1].text != "const"]
    told = [(f, line, ps) for f in fns for line, ps in patterns(f)]
    yield "o1.1", "signatures with an own enum as result, one variant without a value or Refused", of(f for f in fns if set(f.result) & either)
    yield "o1.2", "signatures with a struct that has a bool as result or parameter", of(f for f in fns if set(f.result) & flagged or any(set(p) & flagged for _, p in f.params))
    yield "o1.3", "functions whose integer a caller compares with a word in capitals", of(compared(fns))
    yield "o1.4", "words in capitals in code (kinds' numbers where they are used)", words
    yield "o1.5", "matches on numbers or words in capitals", [Place(f.path, n, f.name) for f, n, ps in told if any(re.fullmatch(r"(?:\w+ :: )*[A-Z][A-Z0-9_]+|\d\w*", p) for p in ps)]
    yield "o1.6", "patterns that tell a refusal apart (Refused(..))", [Place(f.path, n, f.name) for f, n, ps in told for p in ps if re.search(r"\bRefused \(", p)]


def contract(f):
    """The contract with parameters by their places, without numbers, types and module paths."""
    names = {n: f"p{k}" for k, (n, _) in enumerate(f.params)}
    plain = lambda t: "T" if t in INTEGERS or t == "f64" else "N" if t[0].isdigit() else names.get(t, t)
    sign = [plain(t) for _, p in f.params for t in p] + ["->"] + [plain(t) for t in f.result]
    return " ".join(sign + [plain(t) for c in f.clauses for t in c])


def skeleton(f):
    keep = {"if", "else", "for", "while", "loop", "return", "match", "let", "mut", "in", "break"}
    return " ".join(t.text for t in f.body if t.text in keep or not re.match(r"\w", t.text))


def twins(fns):
    long = [f for f in fns if sum(not re.match(r"\w", t.text) for t in f.body) >= 24]
    yield "o2.1", "functions with the same contract but for numbers, types and names of parameters", *in_groups((contract(f), f) for f in fns if f.clauses and f.params)
    yield "o2.2", "functions of 24 signs or more with the same signs and keywords (candidates)", *in_groups((skeleton(f), f) for f in long)


def loops(fns):
    ranges, others, steps, looping, methods = {"a length": [], "a name": [], "a number or more": []}, [], [], [], []
    for f in fns:
        inside = []
        for i, t in enumerate(f.body):
            if t.text in ("for", "while", "loop"):
                k = i + 1
                while f.body[k].text != "{":
                    k += 1
                head = [x.text for x in f.body[i + 1 : k]]
                inside.append((k, shut(f.body, k)))
                if t.text != "for":
                    others.append(Place(f.path, t.line, " ".join([t.text] + head)))
                elif ".." in head:
                    bound = head[head.index("..") + 1 :]
                    kind = "a length" if bound[-3:] == ["len", "(", ")"] else "a name" if len(bound) == 1 and not bound[0].isdigit() else "a number or more"
                    ranges[kind].append(Place(f.path, t.line, " ".join(head)))
            elif t.text in ("+=", "-=") and f.body[i + 1].text == "1" and any(a < i < b for a, b in inside):
                steps.append(Place(f.path, t.line, f.body[i - 1].text))
            elif t.text == "." and f.body[i + 1].text in METHODS and f.body[i + 2].text in ("(", "::"):
                methods.append(Place(f.path, t.line, f.body[i + 1].text))
        looping += of([f]) if inside else []
    for k, (kind, places) in enumerate(ranges.items(), 1):
        yield f"o3.{k}", f"for over a range whose bound is {kind}", places
    yield "o3.4", "while and loop", others
    yield "o3.5", "+= 1 and -= 1 in a loop", steps
    yield "o3.6", "functions with a loop", looping
    yield "o3.7", "calls of iterators' and slices' methods (today's forms)", methods


def today(fns, files):
    heads = [("signatures with Option as result", "Option"), ("signatures with Result as result", "Result")]
    for k, (label, word) in enumerate(heads, 1):
        yield f"t.{k}", label, of(f for f in fns if word in f.result)
    yield "t.3", "places with ?", [Place(f.path, t.line, f.name) for f in fns for t in f.body if t.text == "?"]
    yield "t.4", "methods", of(f for f in fns if f.params and f.params[0][0] == "self")
    yield "t.5", "functions with closures", of(f for f in fns if re.search(r"[(,=] (move )?\|", " ".join(t.text for t in f.body)))
    yield "t.6", "impls of a trait", [Place(p, t.line, ts[i + 1].text) for p, ts in files.items() for i, t in enumerate(ts) if t.text == "impl" and "for" in [x.text for x in ts[i : first(ts, i)]]]


def first(ts, i):
    """The place of the first block from i on."""
    while ts[i].text not in "{;":
        i += 1
    return i


def kinds(root):
    fns, types, files = read(root)
    yield from answers(fns, types, files)
    yield from twins(fns)
    yield from loops(fns)
    yield from today(fns, files)
