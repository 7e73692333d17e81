#!/usr/bin/env python3
"""The other way to count older forms in src/: by what functions are made of, not by words. Prints the places.

For each point: (1) fields of type bool, and literals that a value is compared with or matched on outside a TryFrom; (2) functions of which
the texts are the same once names of types, numbers and strings are taken out; (3) loops in whose body the loop's own variable stands between
brackets, and counters raised by one; (4) matches that give back what they took; (5) parameter lists that share three names and types in
four functions or more, and clauses that stand three times; (6) arrays that stand beside a number in one struct; (7) matches on a number
with three arms or more that call functions."""
import collections
import pathlib
import re

ROOT = pathlib.Path(__file__).resolve().parent.parent


def functions(text):
    """Name, head (with clauses) and body of each function."""
    for m in re.finditer(r"^( *)(?:pub(?:\(crate\))? )?fn (\w+)", text, re.M):
        indent = m.group(1)
        rest = text[m.start():]
        opens = re.search(r"^" + indent + r"\{(\})?$|\{$", rest, re.M)
        ends = re.search(r"^" + indent + r"\}$|;$", rest, re.M)
        if opens is None or (ends and ends.start() < opens.start()):
            continue
        head, tail = rest[:opens.start()], rest[opens.end():]
        close = re.search(r"^" + indent + r"\}$", tail, re.M)
        yield m.group(2), head, tail[:close.start()] if close else ""


def plain(text):
    return re.sub(r"//.*", "", text)


def bare(body):
    body = re.sub(r'"[^"]*"', "S", plain(body))
    body = re.sub(r"\b[A-Z]\w*(::[A-Z]\w*)*", "T", body)
    body = re.sub(r"\b\d[\d_]*\b", "N", body)
    return re.sub(r"\s+", " ", body).strip()


def main():
    twins, params, clauses = (collections.defaultdict(list) for _ in range(3))
    for path in sorted(ROOT.glob("crates/*/src/**/*.rt")):
        text = path.read_text()
        where = str(path.relative_to(ROOT / "crates"))
        for field in re.findall(r"^ +(?:pub )?(\w+): bool,$", text, re.M):
            print(f"1 {where}: bool {field}")
        for m in re.finditer(r"\bstruct (\w+)[^{;]*\{(.*?)^\}", text, re.S | re.M):
            if re.search(r": \[\w+; ", m.group(2)) and re.search(r": (usize|u\d+),", m.group(2)):
                print(f"6 {where}: {m.group(1)} has an array beside a number")
        for name, head, body in functions(text):
            code = plain(body)
            if name != "try_from":
                for m in re.finditer(r"(\b\w+) (==|!=|>=) ([A-Z_]{3,}|[1-9]\d*)\b|matches!\(\w+, \d", code):
                    print(f"1 {where} {name}: {m.group(0)}")
            if name == "number":
                print(f"2 {where} number: one for each enum")
            for m in re.finditer(r"for (\w+) in [^{]*\{(.*?)\n\s*\}", code, re.S):
                if re.search(r"\[[^\]]*\b" + m.group(1) + r"\b[^\]]*\]", m.group(2)):
                    print(f"3 {where} {name}: {m.group(1)} is an index")
            for m in re.finditer(r"\b(\w+) \+= 1;", code):
                print(f"3 {where} {name}: {m.group(1)} is raised by one")
            for m in re.finditer(r"(Ok|Err|Some)\((\w+)\) => \1\(\2\)|None => None|while \w+ < ", code):
                print(f"4 {where} {name}: {m.group(0)}")
            if re.search(r"^impl PartialEq|^impl Ord|^impl Clone", text, re.M) and name in ("eq", "cmp", "clone"):
                print(f"4 {where} {name}: by hand")
            arms = len(re.findall(r"^\s+\d+ => \w+\(", code, re.M))
            if arms >= 3:
                print(f"7 {where} {name}: {arms} arms on a number")
            if len(bare(body)) > 30:
                twins[bare(body)].append(f"{where} {name}")
            given = re.findall(r"(\w+): ([^,)]+)", head.split(") ->")[0].split("fn ", 1)[1].split("(", 1)[1] if "(" in head else "")
            for trio in {tuple(sorted(given)[i:i + 3]) for i in range(len(given) - 2)}:
                params[trio].append(f"{where} {name}")
            for clause in re.findall(r"ensures \w* ?\{(.*)\}$", head, re.M):
                clauses[re.sub(r"\s+", " ", clause).strip()].append(f"{where} {name}")
    for body, names in twins.items():
        if len(names) > 1:
            print("2 one text: " + ", ".join(names))
    for trio, names in params.items():
        if len(names) >= 4:
            print("5 " + ", ".join(f"{n}: {t}" for n, t in trio) + ": " + ", ".join(names))
    for clause, names in clauses.items():
        if len(names) >= 3:
            print(f"5 {len(names)} times: {clause}")


main()
