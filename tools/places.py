"""Lists the places in src/ where an older form of the language may stand, a section for each point of docs/DESIGN-PASS.md.

usage: python3 tools/places.py [FOLDER]     at the top of the repository, or for the one in FOLDER

It reads text and knows no types: what it prints are candidates, and the page says what became of them.
"""
import collections
import pathlib
import re
import sys

TOP = pathlib.Path(sys.argv[1] if len(sys.argv) > 1 else ".")
FILES = [p for p in sorted(TOP.glob("crates/*/src/**/*.rt"))]
CODE = {p: p.read_text() for p in FILES}


def tested(path):
    return "tests" in str(path)


def crate(path):
    return path.relative_to(TOP).parts[1]


def show(title, rows):
    print(f"  {title}: {len(rows)}")
    for row in rows:
        print(f"    {row}")


def lines(pattern, tests=False):
    found = []
    for path, text in CODE.items():
        if tested(path) and not tests:
            continue
        for number, line in enumerate(text.splitlines(), 1):
            if re.search(pattern, line):
                found.append(f"{path.relative_to(TOP)}:{number}: {line.strip()}")
    return found


FUNCTION = re.compile(r"^( *)(?:pub(?:\(\w+\))? )?fn (\w+)(?:<[^>]*>)?\(([^)]*)\)(.*?)^\1\{\n?(.*?)^\1\}|^( *)(?:pub(?:\(\w+\))? )?fn (\w+)[^\n]*\n(?:[^\n{]*\n)*?\6\{\}", re.S | re.M)


def functions():
    for path, text in CODE.items():
        if tested(path):
            continue
        for match in FUNCTION.finditer(text):
            if match.group(2):
                yield path, match.group(2), match.group(3), match.group(4), match.group(5)


def point_1():
    show("functions of no parameters that answer a number", lines(r"fn \w+\(\) -> (u8|u32|usize)$"))
    show("truth values in a struct or a variant", lines(r"^\s+(pub(\(crate\))? )?[a-z_]+: bool,|\{ [a-z]+: bool \}"))
    show("an Option or a Result of a truth value", lines(r"(Option|Result)<bool"))
    show("bare pairs as answers", lines(r"-> (Result<|Option<)?\([a-z]"))
    show("numbers of refusals", lines(r"fn number\(&self\)"))
    show("numbers of kinds", lines(r"^const \w+: u(8|32) = 0x"))


def point_2():
    names = collections.defaultdict(set)
    bodies = collections.defaultdict(list)
    for path, name, _, _, body in functions():
        names[name].add(f"{crate(path)}/{path.name}")
        plain = re.sub(r"\s+", " ", re.sub(r"//[^\n]*", "", body)).strip()
        shape = re.sub(r"\b[a-z_]\w*\b", "x", re.sub(r"\b\d\w*\b", "0", plain))
        if len(shape) > 24:
            bodies[shape].append(f"{crate(path)}/{path.name}:{name}")
    show("functions of one name in several files", [f"{n}: {', '.join(sorted(w))}" for n, w in sorted(names.items()) if len(w) > 1])
    show("functions of one shape", [", ".join(w) for w in bodies.values() if len(w) > 1])
    values = collections.defaultdict(list)
    for path, text in CODE.items():
        for name, value in re.findall(r"const (\w+): \w+ = ([\w_]+);", text):
            values[value.replace("_", "")].append(f"{crate(path)}/{path.name}:{name}")
    show("constants of one value", [f"{v}: {', '.join(w)}" for v, w in sorted(values.items()) if len(w) > 1])


def point_3():
    show("loops over numbers", lines(r"^\s*(for \w+ in [^{]*\.\.|while |loop )"))
    show("the same in tests", [x for x in lines(r"^\s*(for \w+ in [^{]*\.\.|while |loop )", True) if "tests" in x])


def point_4():
    show("impls of Display, From, Drop, Model", lines(r"^impl.*(Display|From<|TryFrom<|FromStr|Drop|Model) ?.*for "))
    only = []
    for path, name, _, _, body in functions():
        one = re.sub(r"\s+", " ", body).strip()
        if re.fullmatch(r"matches!\(.*\)|[\w.*&()]+ (==|!=|<|<=|>|>=) [\w.*&()]+|match \*?\(?\w+(, \w+\))? \{ .*\}", one):
            only.append(f"{crate(path)}/{path.name}:{name}")
    show("functions that are one comparison, one matches! or one match", only)


def point_5():
    facts = collections.Counter()
    for path, text in CODE.items():
        for match in re.finditer(r"requires ?\w* \{ (.*) \}$", text, re.M):
            facts[match.group(1)] += 1
    show("facts that stand in two or more requires", [f"{n} times: {f}" for f, n in facts.most_common() if n > 1])
    pairs = collections.defaultdict(list)
    for path, name, parameters, _, _ in functions():
        each = [re.sub(r"\s+", " ", x).strip() for x in parameters.split(",")]
        each = [x for x in each if ":" in x]
        for i, a in enumerate(each):
            for b in each[i + 1:]:
                pairs[(a, b)].append(f"{crate(path)}::{name}")
    show("pairs of parameters in three or more functions", [f"{len(w)} times: {a}, {b}: {', '.join(w)}" for (a, b), w in sorted(pairs.items(), key=lambda x: -len(x[1])) if len(w) > 2])
    words = collections.Counter()
    for path, text in CODE.items():
        for match in re.finditer(r"store_of \(C\.Chip\.model [^)]*\)( [\w.]+)+|\(\w : \w+\) → (Knows|Told)\b", text):
            words[re.sub(r"\.(old|new|now)", "", match.group(0))] += 1
    show("long terms and premises that stand in several clauses", [f"{n} times: {w}" for w, n in words.most_common()])


def point_6():
    show("Vecs and arrays in structs", lines(r"^\s+(pub(\(crate\))? )?\w+: (Vec<|\[)"))
    show("places in bytes by arithmetic", lines(r"fn start_of|\* (ENTRY|CHUNK)\b"))
    show("an index and a slice in one signature", [f"{crate(p)}/{p.name}:{n}" for p, n, ps, _, _ in functions() if re.search(r": &(mut )?\[", ps) and re.search(r"\w+: usize", ps)])


def point_7():
    show("one method's worth of a trait for many structs", lines(r"^impl Test for"))
    show("steps", lines(r"enum Step\b|match step"))
    show("function pointers and dyn", lines(r"\bfn\(|\bdyn "))


def point_8():
    proofs = sorted(TOP.glob("crates/*/proofs/**/*.antt"))
    by = collections.defaultdict(lambda: [0, 0])
    for path in proofs:
        by[crate(path)][0] += 1
        by[crate(path)][1] += len(path.read_text().splitlines())
    show("files and lines of proofs", [f"{c}: {n} files, {m} lines" for c, (n, m) in by.items()])
    plain = []
    for path in proofs:
        for match in re.finditer(r"^(\S+)[^=\n]* = (search rules|omega arith|search \(rules\)|refl)$", path.read_text(), re.M):
            if path.name == "Answers.antt":
                plain.append(f"{path.relative_to(TOP)}: {match.group(1)}")
    show("answers of one word that the check may find alone", plain)


for number, point in enumerate((point_1, point_2, point_3, point_4, point_5, point_6, point_7, point_8), 1):
    print(f"Point {number}")
    point()
