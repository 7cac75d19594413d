#!/usr/bin/env python3
"""places.py [ROOT] [--list]: how many places of each point of docs/DESIGN-PASS.md stand in ROOT/crates/*/src; with --list each of them.

1a  enums of the shape of Option or Result: two variants, of which one holds nothing and the other one value
1b  structs in which a flag, an answer or a number says whether the others mean anything
1c  functions that fill a lent slice and tell by a bool whether they did
2   pairs of functions whose bodies are the same but for names, numbers and types (four lines and more)
3   loops that say `while`: those of the first count all walked by an index that was counted by hand
4a  calls of std::num in place of a number's own methods
4b  functions that do what a method of the library does, by name
5a  facts that stand in the requires of three or more functions of a crate
5b  crates in which the same three parameters stand in three or more functions
6   functions that write to the front of a lent slice and answer how many
7   functions that take a bool or an enum which says what to do
8   lines of proofs/
"""
import collections
import glob
import itertools
import os
import re
import sys

BY_HAND = """wide lesser larger excess first chosen counted is_digit starts_with same alike zero copy nothing bad two multiple exponent behind
bad_value one_if_bad marked byte_at four_bytes eight_bytes key_at put_word put_text holds new_to fall begins one_more larger""".split()


def functions(text):
    """Yields name, parameters, result, clauses and body of each function."""
    for found in re.finditer(r"^ *(?:pub )?(?:extern \"C\" )?fn (\w+)(?:<[^>]*>)?\(([^)]*)\)(?: -> ([^\n{]+?))?\s*\n?((?:    )*(?:requires|ensures|\{)[^\0]*?)(?=^ *(?:pub )?(?:extern \"C\" )?fn |\Z)", text, re.M):
        name, parameters, result, rest = found.groups()
        clauses = re.findall(r"^ *(?:requires|ensures).*$", rest, re.M)
        body = [line for line in rest.split("\n") if line.strip() and not re.match(r" *(requires|ensures|//|#\[)", line)]
        yield name, parameters, result or "", clauses, body


def parts(clause):
    """The conjuncts of a requires."""
    inner = re.search(r"\{ (.*) \}", clause)
    depth, part, found = 0, "", []
    for letter in inner.group(1) if inner else "":
        depth += (letter == "(") - (letter == ")")
        if letter == "×" and not depth:
            found.append(part)
            part = ""
        else:
            part += letter
    return [re.sub(r"^\((.*)\)$", r"\1", it.strip()) for it in found + [part] if it.strip()]


def shape(body):
    """A body with names and numbers taken out."""
    return tuple(re.sub(r"\b\w+\b", lambda w: w.group(0) if w.group(0) in ("if", "else", "while", "for", "in", "let", "mut", "return", "match") else "n", line.strip()) for line in body)


def places(root):
    found = collections.defaultdict(list)
    bodies = collections.defaultdict(list)
    for path in sorted(glob.glob(f"{root}/crates/*/src/*.rt")):
        crate = path.split("/crates/")[1].split("/")[0]
        text = open(path, encoding="utf-8").read()
        for enum in re.finditer(r"enum (\w+) \{\n((?:    .*\n)*?)\}", text):
            variants = [line.strip().rstrip(",") for line in enum.group(2).split("\n") if line.strip() and not line.strip().startswith("//")]
            if len(variants) == 2 and sum("(" in it for it in variants) == 1:
                found["1a"].append(f"{crate}: {enum.group(1)}")
        for struct in re.finditer(r"struct (\w+)[^{;]* \{\n((?:    .*\n)*?)\}", text):
            if re.search(r"(answer: Answer|found: bool|good: bool|number: u32)", struct.group(2)):
                found["1b"].append(f"{crate}: {struct.group(1)}")
        facts, groups = collections.defaultdict(set), collections.defaultdict(set)
        for name, parameters, result, clauses, body in functions(text):
            place = f"{crate}: {name}"
            if result.strip() == "bool" and "&mut [" in parameters:
                found["1c"].append(place)
            if result.strip() == "usize" and "&mut [" in parameters:
                found["6"].append(place)
            if re.search(r": (bool|Change)\b", parameters):
                found["7"].append(place)
            if name in BY_HAND:
                found["4b"].append(place)
            found["3"] += [f"{place}: {line.strip()}" for line in body if re.match(r" *while ", line)]
            found["4a"] += [f"{place}: {line.strip()}" for line in body if "std::num::" in line]
            if len(body) >= 5:
                bodies[shape(body)].append(place)
            for clause in clauses:
                if clause.strip().startswith("requires"):
                    for part in parts(clause):
                        facts[part].add(name)
            names = [re.match(r"(?:mut )?(\w+)", it.strip()).group(1) for it in parameters.split(",") if ":" in it]
            for three in itertools.combinations(sorted(names), 3):
                groups[three].add(name)
        found["5a"] += [f"{crate}: {fact} ({', '.join(sorted(where))})" for fact, where in sorted(facts.items()) if len(where) > 2]
        often = {three: where for three, where in groups.items() if len(where) > 2}
        if often:
            found["5b"].append(f"{crate}: {', '.join(sorted({it for three in often for it in three}))} ({', '.join(sorted({it for where in often.values() for it in where}))})")
    for where in bodies.values():
        found["2"] += [f"{a} ~ {b}" for a, b in itertools.combinations(where, 2)]
    return found


def main():
    words = [it for it in sys.argv[1:] if not it.startswith("-")]
    root = words[0] if words else "."
    found = places(root)
    found["8"] = [""] * sum(sum(1 for _ in open(path, encoding="utf-8")) for path in glob.glob(f"{root}/crates/*/proofs/**/*.antt", recursive=True))
    for point in ("1a", "1b", "1c", "2", "3", "4a", "4b", "5a", "5b", "6", "7", "8"):
        print(point, len(found[point]))
        if "--list" in sys.argv and point != "8":
            print("".join(f"    {it}\n" for it in found[point]), end="")


if __name__ == "__main__":
    main()
