#!/usr/bin/env python3
"""Respells this repository's own definitions and lemmas: types and facts in camel case, all else in snake case.

usage: python3 tools/respell.py [FOLDER]     the folder that holds crates/ (default: the one above this script)
       python3 tools/respell.py --list [FOLDER]     prints old and new names, and changes nothing

A name is changed only if it has a dash and is declared in some specs/ or proofs/ file of the repository: as a
definition, a lemma, a field, a constructor, a parameter or a local name. Names that the toolchain makes (goals, and
what answers cite of a function) and names of its libraries stay. In .rt files only clauses and ghost lines are read,
in .md files only what stands between backticks. Run it once, after the toolchain's own script.
"""

import os
import re
import sys

NAME = r"[^\W\d_](?:[\w']|-(?=[\w']))*"
TOKEN = re.compile(r"(?<![\w'-])" + NAME + r"(?![\w'-])")
OWN_MODULE = re.compile(r"Rattle\.(\w+)\.(?:specs|proofs)\.")


def files(root, kinds):
    for folder, dirs, names in os.walk(os.path.join(root, "crates")):
        dirs[:] = sorted(d for d in dirs if d != "out")
        for n in sorted(names):
            if n.endswith(kinds):
                yield os.path.join(folder, n)


def read(path):
    with open(path, encoding="utf-8") as f:
        return f.read()


def without_comments(text):
    return "\n".join(line.split("--", 1)[0] if line.lstrip().startswith("--") else line for line in text.split("\n"))


def declared(root):
    found = set()
    for p in files(root, (".antt",)):
        text = without_comments(read(p))
        for m in re.finditer(r"(?m)^[ \t]*(?:(?:pub|abbrev|unfoldable|data|record|module)[ \t]+)*(" + NAME + r")((?:[ \t]+(?:\([^:\n]*:|\{[^:\n]*:))?[^\n]*)$", text):
            name, rest = m.group(1), m.group(2)
            if "-" not in name:
                continue
            after = rest.strip()
            if re.match(r":\s*(goal|given|need)\.", after):
                continue
            if re.match(r"(:|\(|\{)", after):
                if not re.search(r":", after):
                    continue
                found.add(name)
        # parameters and local names
        for m in re.finditer(r"[({]((?:" + NAME + r"[ \t]+)*" + NAME + r")[ \t]*:", text):
            found.update(n for n in m.group(1).split() if "-" in n)
        for m in re.finditer(r"\blet[ \t]+(" + NAME + r")[ \t]*[:=]", text):
            if "-" in m.group(1):
                found.add(m.group(1))
        for m in re.finditer(r"λ[ \t]+((?:" + NAME + r"[ \t]+)*" + NAME + r")\.", text):
            found.update(n for n in m.group(1).split() if "-" in n)
    return found


def foreign(root):
    """Names that the toolchain makes or that come from its libraries."""
    own = set(os.listdir(os.path.join(root, "crates")))
    found = set()
    for p in files(root, (".antt", ".rt")):
        text = read(p)
        for m in re.finditer(r"\b(?:goal|given|need)\.(" + NAME + ")", text):
            found.add(m.group(1))
        for m in re.finditer(r"(?m)^[ \t]*(?:ghost )?use ([\w.+'-]+)\.\{([^}]*)\}", text):
            path = m.group(1) + "."
            mine = OWN_MODULE.match(path)
            if mine and mine.group(1) in own and "Goals" not in path and "Given" not in path:
                continue
            for item in m.group(2).split(","):
                found.add(item.split(" as ")[0].strip())
    return found


def respelled(name):
    if name[0].isupper():
        return "".join(part[:1].upper() + part[1:] for part in name.split("-"))
    return name.replace("-", "_")


def turn(text, names):
    return TOKEN.sub(lambda m: names.get(m.group(0), m.group(0)), text)


def turn_source(text, names):
    """A .rt file: ghost lines, and clauses from `requires`, `ensures` or `ghost` to the closing brace."""
    out, depth, inside = [], 0, False
    for line in text.split("\n"):
        code = line.strip()
        if not inside and re.match(r"(pub )?(requires|ensures|ghost)\b", code):
            inside, depth = True, 0
        if inside:
            out.append(turn(line, names))
            depth += line.count("{") - line.count("}")
            if depth <= 0:
                inside = False
        else:
            out.append(line)
    return "\n".join(out)


def turn_page(text, names):
    return re.sub(r"`[^`\n]+`", lambda m: turn(m.group(0), names), text)


def main(argv):
    listing = "--list" in argv
    rest = [a for a in argv if a != "--list"]
    root = rest[0] if rest else os.path.join(os.path.dirname(os.path.realpath(__file__)), "..")
    own, others = declared(root), foreign(root)
    names = {n: respelled(n) for n in sorted(own - others)}
    if listing:
        for n in sorted(names):
            print(n, names[n])
        print("kept, also a library's or the toolchain's:", *sorted(own & others))
        plain = set()
        for p in files(root, (".antt", ".rt")):
            plain.update(TOKEN.findall(read(p)))
        print("fall together:", *sorted(f"{n}->{r}" for n, r in names.items() if r in plain))
        return 0
    for p in files(root, (".antt", ".rt")):
        text = read(p)
        new = turn(text, names) if p.endswith(".antt") else turn_source(text, names)
        if new != text:
            with open(p, "w", encoding="utf-8") as f:
                f.write(new)
    pages = [os.path.join(root, "README.md")] + [os.path.join(root, "docs", n) for n in sorted(os.listdir(os.path.join(root, "docs")))]
    for p in pages:
        if p.endswith(".md") and os.path.exists(p) and not os.path.basename(p).startswith("PORT"):
            text = read(p)
            new = turn_page(text, names)
            if new != text:
                with open(p, "w", encoding="utf-8") as f:
                    f.write(new)
    print(len(names), "names respelled")
    return 0


if __name__ == "__main__":
    raise SystemExit(main(sys.argv[1:]))
