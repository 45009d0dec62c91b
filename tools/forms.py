#!/usr/bin/env python3
"""Counts the places in crates/*/src that docs/DESIGN-PASS.md speaks of.

  tools/forms.py          how many there are of each point
  tools/forms.py POINT    each place of one point, as 3 or 5a
"""
import collections, glob, os, re, sys

os.chdir(os.path.join(os.path.dirname(os.path.abspath(__file__)), ".."))


def functions():
    """Each function: file, line, name, parameters as (name, type), result, contract, body."""
    for path in sorted(glob.glob("crates/*/src/**/*.rt", recursive=True)):
        text = open(path).read()
        text = re.sub(r"//[^\n]*", lambda m: " " * len(m.group()), text)
        for m in re.finditer(r"^( *)(?:pub(?:\(\w+\))? )?(?:unsafe )?fn (\w+)(?:<[^(]*>)?\(", text, re.M):
            i, depth = m.end(), 1
            while depth:
                depth += {"(": 1, ")": -1}.get(text[i], 0)
                i += 1
            inside = text[m.end():i - 1]
            # the body begins at a brace that ends the line of the parameters, or at one alone on a line behind the contract
            rest = text[i:text.find("\n", i)]
            start = i + len(rest) - 1 if rest.endswith("{") else text.find("\n" + m.group(1) + "{\n", i)
            head = text[i:start]
            end = text.find("\n" + m.group(1) + "}", start)
            params, cut, depth = [], 0, 0
            for p, c in enumerate(inside + ","):
                depth += {"(": 1, "[": 1, "<": 1, ")": -1, "]": -1, ">": -1}.get(c, 0) if not (c == ">" and inside[p - 1:p] == "-") else 0
                if c == "," and depth <= 0:
                    one = " ".join(inside[cut:p].split())
                    if ":" in one:
                        name, kind = one.split(":", 1)
                        params.append((name.strip(), kind.strip()))
                    cut = p + 1
            yield path, text[:m.start()].count("\n") + 1, m.group(2), params, head, text[start:end]


FUNCTIONS = list(functions())


def enums():
    """1a: own enums, with their variants (which have the shape of Option or Result is told by reading)."""
    for path in sorted(glob.glob("crates/*/src/**/*.rt", recursive=True)):
        text = re.sub(r"//[^\n]*", "", open(path).read())
        for m in re.finditer(r"^(?:pub )?enum (\w+)(?:<[^>]*>)? \{\n(.*?)^\}", text, re.M | re.S):
            yield f"{path}: {m.group(1)} {{ {' '.join(m.group(2).split())} }}"


def codes():
    """1b: constants that number kinds, slots or answers."""
    for path in sorted(glob.glob("crates/*/src/**/*.rt", recursive=True)):
        for n, line in enumerate(open(path), 1):
            m = re.match(r"\s*(?:pub )?const (\w+): (usize|u64|u32|u16|u8|i32) = (\d+);", line)
            if m:
                yield f"{path}:{n}: {m.group(1)}: {m.group(2)} = {m.group(3)}"


def loops():
    """3: loops whose variable is stepped by one by hand."""
    for path, line, name, params, head, body in FUNCTIONS:
        for m in re.finditer(r"^( *)(while [^\n]*|loop) \{\n(.*?)^\1\}", body, re.M | re.S):
            test, inner = m.group(2), m.group(3)
            stepped = set(re.findall(r"(\w+) [+-]= 1;", inner))
            set_otherwise = set(re.findall(r"^\s*(\w+) = ", inner, re.M))
            if any(re.search(r"\b%s\b" % v, test) and v not in set_otherwise for v in stepped):
                yield f"{path}:{line}: {name}: {test}"


def nothings():
    """1c: what a comment says is a number that may stand for nothing."""
    for path in sorted(glob.glob("crates/*/src/**/*.rt", recursive=True)):
        for n, line in enumerate(open(path), 1):
            if re.search(r"//.*(\bor 0\b|\b0 where\b|\b0 (is|for|means) no|number 0|; 0 for|, 0 where|0: none|or UNKNOWN|or NO_)", line):
                yield f"{path}:{n}: {line.strip()}"


def equals():
    """4: functions that compare, order or convert by hand."""
    for path, line, name, params, head, body in FUNCTIONS:
        kinds = [k.replace("&", "").replace("'a ", "") for _, k in params]
        if len(kinds) == 2 and kinds[0] == kinds[1] and re.match(r"\s*-> (bool|Order|Ordering)\b", head) and re.search(r"==|while|for ", body):
            yield f"{path}:{line}: {name}"


def facts():
    """5a: facts that stand in the contracts of three or more functions of a crate."""
    seen = collections.defaultdict(set)
    for path, line, name, params, head, body in FUNCTIONS:
        for clause in re.findall(r"requires(?: \w+)? \{(.*?)\}\s*$", head, re.M):
            for fact in clause.split("×"):
                fact = fact.strip()
                while fact.startswith("(") and fact.endswith(")"):
                    fact = fact[1:-1].strip()
                seen[path.split("/")[1], fact].add(name)
    for (crate, fact), names in sorted(seen.items()):
        if len(names) > 2:
            yield f"{crate}: {fact}: {len(names)}: {' '.join(sorted(names))}"


def travellers():
    """5b: runs of three or more parameters that stand together in three or more functions, longest first."""
    seen = collections.defaultdict(set)
    for path, line, name, params, head, body in FUNCTIONS:
        plain = [(n, k.replace("mut ", "").replace("'a ", "")) for n, k in params]
        for size in range(3, len(plain) + 1):
            for i in range(len(plain) - size + 1):
                seen[tuple(plain[i:i + size])].add(path + ":" + name)
    kept = []
    for run, names in sorted(seen.items(), key=lambda x: (-len(x[0]), -len(x[1]))):
        if len(names) > 2 and not any(names <= other and any(big[i:i + len(run)] == run for i in range(len(big))) for big, other in kept):
            kept.append((run, names))
    for run, names in kept:
        yield f"{', '.join(n + ': ' + k for n, k in run)}: {len(names)} functions"


def beside():
    """6: parameters that are a buffer with its length or filling beside it."""
    for path, line, name, params, head, body in FUNCTIONS:
        for (a, k), (b, l) in zip(params, params[1:]):
            if re.match(r"&(?:'a )?(?:mut )?\[", k) and l == "usize" and re.match(r"n$|k$|m$|from$|count$|used$|lines$|size$|depth$|end$", b):
                yield f"{path}:{line}: {name}: {a}, {b}"


def switches():
    """7: functions that only choose by a number which function to run."""
    for path, line, name, params, head, body in FUNCTIONS:
        arms = re.findall(r"if (\w+) == [A-Z_]{3,} \{\n\s*return \w+\(", body)
        if len(arms) > 2:
            yield f"{path}:{line}: {name}: {len(arms)} of {collections.Counter(arms).most_common(1)[0][0]}"


def twins():
    """2: functions whose text is the same but for names, literals and types."""
    seen = collections.defaultdict(list)
    for path, line, name, params, head, body in FUNCTIONS:
        names = {}
        flat = re.sub(r"\b[A-Za-z_]\w*\b|\b\d+\b|b?\"[^\"]*\"", lambda m: m.group() if m.group() in ("if", "else", "while", "return", "match", "let", "mut", "true", "false", "for", "in", "as", "loop") else names.setdefault(m.group(), f"v{len(names)}"), body)
        flat = " ".join(flat.split())
        if body.count("\n") > 3:
            seen[len(params), flat].append(f"{path}:{line}: {name}")
    for same in seen.values():
        if len(same) > 1:
            yield "  ".join(same)


POINTS = {"1a": enums, "1b": codes, "1c": nothings, "2": twins, "3": loops, "4": equals, "5a": facts, "5b": travellers, "6": beside, "7": switches}
if len(sys.argv) > 1:
    for place in POINTS[sys.argv[1]]():
        print(place)
else:
    for point, places in POINTS.items():
        print(point, len(list(places())), places.__doc__)
