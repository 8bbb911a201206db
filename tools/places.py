#!/usr/bin/env python3
"""Lists the places in crates/*/src that may be written in a plainer form, one list for each point.

    tools/places.py [POINT ..]      a line for each place, then the counts; with points (1 to 8), only those

It goes by text: what it lists is to be read, and a place that it cannot see is to be found by reading.
"""
import re, sys, glob, os, collections

ROOT = os.path.dirname(os.path.dirname(os.path.abspath(__file__)))
POINTS = set(sys.argv[1:]) or set("12345678")
FOUND = collections.OrderedDict()


def found(point, kind, where, text):
    FOUND.setdefault((point, kind), []).append((where, " ".join(text.split())[:130]))


class Fn:
    def __init__(self, where, name, head, clauses, body):
        self.where, self.name, self.head, self.clauses, self.body = where, name, head, clauses, body


def braces(s, at):
    """The place after the block that opens at s[at]."""
    depth = 0
    for i in range(at, len(s)):
        if s[i] == "{":
            depth += 1
        elif s[i] == "}":
            depth -= 1
            if depth == 0:
                return i + 1
    return len(s)


def functions(where, s):
    for m in re.finditer(r"^ *(?:pub(?:\([a-z]+\))? )?(?:const )?fn (\w+)", s, re.M):
        i, clauses, depth = m.end(), [], 0
        while i < len(s):
            depth += {"[": 1, "]": -1}.get(s[i], 0)
            if s[i] == ";" and depth == 0:
                body = ""
                break
            c = re.compile(r"\s+(requires|ensures)(?: (\w+))? \{").match(s, i - 1)
            if c:
                end = braces(s, c.end() - 1)
                clauses.append((c.group(1), c.group(2), s[c.end():end - 1].strip()))
                i = end
                continue
            if s[i] == "{":
                body = s[i:braces(s, i)]
                break
            i += 1
        head = s[m.start():i]
        head = re.split(r"\n\s+(?:requires|ensures)\b", head)[0]
        yield Fn(f"{where}:{s[:m.start()].count(chr(10)) + 1}", m.group(1), head, clauses, body)


def lines(where, s, pattern):
    for i, line in enumerate(s.split("\n"), 1):
        if re.search(pattern, line):
            yield f"{where}:{i}", line


SRC, FNS = {}, []
for path in sorted(glob.glob(f"{ROOT}/crates/*/src/**/*.rt", recursive=True)):
    where = os.path.relpath(path, f"{ROOT}/crates").replace("/src/", "/")
    text = re.sub(r"//[^\n]*", "", open(path).read())
    SRC[where] = text
    FNS += list(functions(where, text))

# 1. Options, results, flags and numbers by hand
for f in FNS:
    if re.search(r"-> bool", f.head) and "&mut" in f.head:
        found("1", "a bool for done or refused", f.where, f.name)
    for p in re.findall(r"\w+: bool\b", f.head):
        found("1", "a flag handed over", f.where, f"{f.name}: {p}")
    if re.search(r"-> Refusal\b", f.head) and not f.where.startswith("frames/") and f.name != "refusal" and "tests" not in f.where:
        found("1", "a number for a refusal, in a helper of its own", f.where, f.name)

# What one line shows, of points 1, 4 and 7
ON_A_LINE = [
    ("1", "a case of an own enum that says none", r"^\s+(Neither|Other|Unknown|Nothing|Missing|None)\b(\(.*\))?,"),
    ("1", "an Option or Result taken apart by hand", r"\b(None|Some\(_\)) => |\bErr\(\w+\) => (return )?Err\(|if let Err\(|_ => None|\bErr\(_\) =>"),
    ("1", "a case that cannot be", r"unreachable\(\)"),
    ("4", "a conversion by as", r"\bas (usize|u64|u32|u16|u8|i8|i16|i32|i64)\b"),
    ("4", "an impl by hand", r"^impl.*\b(From|TryFrom|Display|Debug|PartialEq|Eq|Ord|PartialOrd|Clone|Copy|Default)\b.* for "),
    ("4", "a max or min by hand", r"if (\w+) < (\w+) \{ \2 \} else \{ \1 \}|if (\w+) > (\w+) \{ .* \} else \{ .* \}$|if (\w+) < \d+ \{ \5 \}"),
    ("7", "a function handed over", r"\bdyn \b|: fn\(|impl Fn"),
]
for point, kind, pattern in ON_A_LINE:
    for w, s in SRC.items():
        for at, line in lines(w, s, pattern):
            found(point, kind, at, line)

# 2. Twins: the same tokens but for names and numbers; and one contract on two functions
def shape(f):
    t = re.findall(r"\w+|\S", f.head.split("fn ", 1)[1] + " " + f.body)
    keep = {"for", "in", "if", "else", "match", "while", "loop", "let", "return", "mut", "self", "fn", "pub", "break", "continue"}
    return " ".join(x if x in keep or not re.match(r"\w", x) else "x" for x in t)


groups = collections.defaultdict(list)
for f in FNS:
    if len(re.findall(r"\w+", f.body)) >= 5 and "test" not in f.where:
        groups[shape(f)].append(f)
for g in groups.values():
    if len(g) > 1:
        found("2", "functions alike but for names", g[0].where, ", ".join(f"{f.where.split('/')[0]} {f.name}" for f in g))
groups = collections.defaultdict(list)
for f in FNS:
    if f.clauses:
        groups[tuple(c[2] for c in f.clauses)].append(f)
for g in groups.values():
    if len(g) > 1 and len({f.where.split('/')[0] for f in g}) == 1:
        found("2", "functions with one contract", g[0].where, ", ".join(f.name for f in g))

# 3. Loops
for w, s in SRC.items():
    for m in re.finditer(r"^.*?\b(for ([\w(), ]+) in ([^{]*)|while (?!let)([^{]*)|while let [^{]*|loop )\{", s, re.M):
        body = s[m.end() - 1:braces(s, m.end() - 1)]
        at = f"{w}:{s[:m.start()].count(chr(10)) + 1 + m.group(0).count(chr(10))}"
        v = re.findall(r"\w+", m.group(2) or "")
        by_index = any(re.search(r"\[[^\]]*\b" + x + r"\b[^\]]*\]", body) for x in v)
        if m.group(2) and not by_index and ".." not in m.group(3):
            found("3", "a for over values", at, m.group(0))
        elif m.group(2) and by_index:
            found("3", "a for that counts an index", at, m.group(0))
        elif m.group(2):
            found("3", "a for over a range of numbers", at, m.group(0))
        else:
            found("3", "a while or loop", at, m.group(0))

# 5. Facts and parameters that travel
facts = collections.defaultdict(list)
for f in FNS:
    for kind, name, c in f.clauses:
        if kind == "requires":
            facts[re.sub(r"\.(now|old|new|entry)\b", "", c)].append(f)
for c, fs in facts.items():
    if len(fs) >= 3:
        found("5", "a requires in three contracts or more", fs[0].where, f"{len(fs)} x {c}: " + ", ".join(f.name for f in fs))
pairs = collections.defaultdict(list)
for f in FNS:
    ps = re.findall(r"(\w+): (&(?:'\w+ )?(?:mut )?[\w<>'\[\], ]+?)(?:,|\)|\n)", f.head)
    names = sorted({f"{n}: {re.sub(chr(39) + r'[a-z_]+ ?', '', t)}" for n, t in ps})
    for i, a in enumerate(names):
        for b in names[i + 1:]:
            pairs[(a, b)].append(f)
for p, fs in pairs.items():
    if len(fs) >= 3:
        found("5", "two lent parameters in three functions or more", fs[0].where, f"{len(fs)} x {p[0]} and {p[1]}")

# 6. Arrays as fields
for w, s in SRC.items():
    for m in re.finditer(r"struct (\w+)[^;{]*\{", s):
        body = s[m.end():braces(s, m.end() - 1)]
        for a in re.findall(r"^\s+(?:pub(?:\(crate\))? )?(\w+: \[[^;]+; \d+\])", body, re.M):
            found("6", "an array in a struct", f"{w}:{s[:m.start()].count(chr(10)) + 1}", f"{m.group(1)}: {a}")

# 7. Switches
for f in FNS:
    for m in re.finditer(r"match ([^{]*)\{", f.body):
        arms = re.findall(r"=> ([\w.:]+)\(", f.body[m.end():braces(f.body, m.end() - 1)])
        arms = [a for a in arms if a not in ("Ok", "Err", "Some", "write", "print", "println")]
        if len(set(arms)) >= 3:
            found("7", "a match that chooses what to run", f.where, f"{f.name}: {m.group(1)} -> {', '.join(sorted(set(arms)))}")
# 8. Proofs
for crate in sorted(glob.glob(f"{ROOT}/crates/*/proofs")):
    name = crate.split("/")[-2]
    files = glob.glob(f"{crate}/**/*.antt", recursive=True)
    text = {p: open(p).read() for p in files}
    whole = "\n".join(text.values()) + "\n".join(s for w, s in SRC.items())
    whole += "\n".join(open(p).read() for p in glob.glob(f"{ROOT}/crates/*/proofs/**/*.antt", recursive=True))
    whole += "\n".join(open(p).read() for p in glob.glob(f"{ROOT}/crates/*/specs/*.antt"))
    for p, s in text.items():
        rel = os.path.relpath(p, f"{ROOT}/crates").replace("/proofs/", "/")
        base = os.path.basename(p)
        if base == "Answers.antt":
            for m in re.finditer(r"^pub ([\w-]+) : goal", s, re.M):
                found("8", "answers", rel, m.group(1))
        elif base == "Invariants.antt":
            found("8", "invariant files", rel, "")
        elif base != "Lib.antt":
            for m in re.finditer(r"^(?:abbrev )?(?:pub )?(?:abbrev )?([\w'-]+) : ", s, re.M):
                found("8", "lemmas", rel, m.group(1))
                if len(re.findall(r"(?<![\w'-])" + re.escape(m.group(1)) + r"(?![\w'-])", whole)) <= 2 * 2:
                    found("8", "lemmas that nothing seems to cite", rel, m.group(1))

for (point, kind), places in FOUND.items():
    if point in POINTS and not (point == "8" and kind != "lemmas that nothing seems to cite"):
        print(f"\n# {point}. {kind}: {len(places)}")
        for where, text in places:
            print(f"{where}  {text}")
print("\n# counts")
for (point, kind), places in FOUND.items():
    if point in POINTS:
        print(f"{point}  {len(places):4}  {kind}")
