"""Counts the places where today's Rattle has another form, in crates/*/src and crates/*/proofs.

    python3 tools/places.py [--list]

One line for each point, with --list the places too.
"""
import collections, glob, re, sys

files = {p: open(p, encoding="utf-8").read() for p in sorted(glob.glob("crates/*/src/**/*.rt", recursive=True))}
places = collections.OrderedDict()


def add(point, path, offset, said):
    line = files[path].count("\n", 0, offset) + 1
    places.setdefault(point, []).append(f"{path}:{line}: {said.strip()[:110]}")


def each(point, pattern):
    for path, text in files.items():
        for m in re.finditer(pattern, text, re.M):
            add(point, path, m.start(), m.group(0))


def functions(text):
    for m in re.finditer(r"^( *)(?:pub(?:\(crate\))? )?fn ([a-z_0-9]+)", text, re.M):
        end = re.search(r"^" + m.group(1) + r"\}", text[m.start():], re.M)
        semi = text.find(";\n", m.start())
        body = text.find("{\n", m.start())
        if end and not (0 <= semi < body):
            yield m, text[m.start():m.start() + end.end()]


def shape(text):
    text = re.sub(r"//.*|^ *(?:requires|ensures)\b.*$", "", text, flags=re.M)
    text = re.sub(r'"[^"]*"', "S", text)
    text = re.sub(r"\b(?:fn|let|mut|if|else|for|in|match|return|self|None|Some|Ok|Err|as|impl|pub|crate)\b", lambda m: m.group(0).upper(), text)
    text = re.sub(r"\b[a-z_][a-z_0-9]*\b|\b[A-Z][A-Za-z0-9]*[a-z][A-Za-z0-9]*\b", "i", text)
    return re.sub(r"\s+|-?\b[0-9_]+\b", "", text)


# 1
each("1 own enum", r"^ *(?:pub(?:\(crate\))? )?enum [A-Z]\w*")
each("1 flag in a struct", r"^ *(?:pub(?:\(crate\))? )?[a-z_]+: bool,$")
each("1 fault or kind in an Option beside a value", r"^    (?:pub )?(?:stopped|first): Option<\w+>,$")
each("1 flag for a write that was not made", r"fn (?:write|put)\b.*-> bool")
each("1 value beside a flag", r"for \(\w+, (?:on|is|has)_\w+\)")
each("1 error thrown away and named anew", r"Err\(_\) => ")

# 2
shapes = collections.defaultdict(list)
for path, text in files.items():
    for m, body in functions(text):
        if body.count("\n") > 3:
            shapes[shape(body)].append((path, m))
for same in shapes.values():
    if len(same) > 1:
        for path, m in same:
            add("2 function of the same form as another", path, m.start(), m.group(2))
each("2 struct that captures slices for one method", r"^impl \w*Check for \w+")

# 3
each("3 loop over a counted index", r"^ *for (?!_ )\w+ in [^{]*\.\.[^{]* \{")
each("3 while or loop", r"^ *(?:while|loop)\b")

# 4
each("4 text by a function", r"fn \w+(?:<[^>]*>)?\([^)]*\) -> (?:&'static str|Result<String, AllocError>)")
each("4 equality by fields", r"\w+\.(\w+) == \w+\.\1 &&")
each("4 conversion by a method", r"pub fn (?:record|bracket)\(self\)")
each("4 cast", r"\bas (?:u16|u64|usize|i64)\b")

# 5
clauses = collections.Counter()
for path, text in files.items():
    for m, body in functions(text):
        seen = set()
        for clause in re.findall(r"^ *(?:requires|ensures)\b.*$", body, re.M):
            for term in re.findall(r"\((?:[^()]|\([^()]*\))*\)", clause):
                if len(term) > 40:
                    seen.add(term)
            for term in re.findall(r"\b(?:Laid|Walkable|Certifiable|Stands)\b(?: [\w.()]+)+", clause):
                seen.add(term.strip())
            if "MatchResult" in clause and "≡ refuse (fault_of e)" in clause:
                seen.add("MatchResult .. ≡ refuse (fault_of e)")
        clauses.update(seen)
for term, n in clauses.items():
    if n > 2:
        places.setdefault("5 fact or term in the clauses of three functions or more", []).append(f"{n} functions: {term[:100]}")
pairs = collections.Counter()
for path, text in files.items():
    for m, body in functions(text):
        head = body[: body.find(")")]
        params = re.findall(r"(\w+): ([^,\n)]+)", head)
        pairs.update({(a, b) for i, a in enumerate(params) for b in params[i + 1 :]})
for (a, b), n in pairs.items():
    if n > 3:
        places.setdefault("5 parameters that travel together (four functions or more)", []).append(f"{n} functions: {a[0]}: {a[1]}, {b[0]}: {b[1]}")

# 6
each("6 room or table of a fixed size", r"with_capacity\(\w+, \d+\)|^ *(?:pub(?:\(crate\))? )?\w+: \[[^;\]]+; (?:N|\d+)\],$")
each("6 list searched by a loop", r"^ *for [^{]* \{\n *if (?:let Some\(\w+\) = \w+ \{\n *if )?\w+\.\w+ == \w+ \{\n *return")
each("6 list of lists of bytes", r"Vec<Vec<u8>>")

# 7
each("7 closure or bound on one", r"\|[a-z_&, ()]*\| |F: Fn\w*\(|R: Fn\w*\(")
each("7 rule as a trait", r"^impl Rule<")

# 8
goals = lines = 0
for path in glob.glob("crates/*/proofs/**/*.antt", recursive=True):
    text = open(path, encoding="utf-8").read()
    lines += text.count("\n")
    if path.endswith("Answers.antt"):
        goals += len(re.findall(r"^pub .* : goal\.", text, re.M))

for point, found in places.items():
    print(f"{len(found):4}  {point}")
    if "--list" in sys.argv:
        for place in found:
            print("        " + place)
print(f"{goals:4}  8 answered goals\n{lines:4}  8 lines of proofs")
