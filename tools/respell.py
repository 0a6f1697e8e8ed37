#!/usr/bin/env python3
"""Brings the names that this repository's specs/ and proofs/ declare to today's spelling.

usage: python3 tools/respell.py        at the top, once, right after port.py: what is written later has the new spelling

A word is in snake case: `goodFrame` and `good-frame` become `good_frame`, and a middle dot joins as a dash does. Types,
modules, what Rattle makes and what src/ names keep their spelling. Where two of a file's names would fall together, the
lemma keeps its dash: the script says so. It goes over specs/, proofs/, the clauses and ghost items of src/, the
must-fail edits and, in pages, over what stands in backquotes.
"""
import os
import re
import sys

# what ends a name in antt
WORD = r"[^\s(){}\[\].,;:\"`«»|@&]+"
# what Rattle makes, by its first or last part
MADE = re.compile(r"^(returns|add|sub|mul|cast|shl|shr|array|loop|index|slice)-|-(spec|requires)$")
# an older edit's spelling that port.py, which turns no edit, leaves: the files' own texts have the newer one
OLDER = [
    (r"Rattle·(\w+)·specs\.specs\.", r"Rattle.\1.specs."),
    (r"Rattle·(\w+)", r"Rattle.\1"),
    (r"(?<=[\w')]) +\.(?=[a-z0-9])", "."),
    (r"\bgetD\b", "get_or"),
    (r"λ r\. ⌜ r ≡ (.*?) ⌝", r"result ≡ \1"),
]


def files(*ends):
    for folder, folders, names in os.walk("crates"):
        folders[:] = sorted(f for f in folders if f not in ("out", "target"))
        for name in sorted(names):
            if name.endswith(ends):
                yield os.path.join(folder, name)


def read(path):
    with open(path, encoding="utf-8") as f:
        return f.read()


def write(path, text):
    with open(path, "w", encoding="utf-8") as f:
        f.write(text)


def by_hand(path):
    """A proof that walks the code: what it declares are a function's goals."""
    return path.endswith("/Proof.antt")


def declared():
    """Each name that a file of specs/ or a lemma file declares, with the files."""
    found = {}
    for path in files(".antt"):
        if by_hand(path):
            continue
        for line in read(path).split("\n"):
            if line.lstrip().startswith("--"):
                continue
            head = re.match(r"\s*(?:(?:unfoldable|abbrev|pub|data|record|ruleset|constructor)\s+)*(" + WORD + r"(?: " + WORD + r")*)(?: : | = |(?: \(.*)? : )", line)
            for name in (head.group(1).split() if head else []):
                found.setdefault(name, set()).add(path)
            group = re.match(r"\s*(?:module _ )?\{?\(?(" + WORD + r"(?: " + WORD + r")*) : ", line)
            for name in (group.group(1).split() if group else []):
                found.setdefault(name, set()).add(path)
            for name in re.findall(r"\blet (" + WORD + r") ", line):
                found.setdefault(name, set()).add(path)
    return found


def of_the_kit():
    """Names that files take from the kit's libraries."""
    taken = set()
    for path in files(".antt", ".rt"):
        for line in read(path).split("\n"):
            use = re.match(r"\s*(?:pub )?(?:ghost )?use ([\w·.]+)\.\{(.*)\}", line)
            if use and not re.match(r"Rattle[.·](?!std)", use.group(1)):
                taken.update(w for item in use.group(2).split(", ") for w in item.split(" as ")[:1])
    return taken


def snake(name):
    name = re.sub(r"(?<=[a-z0-9])([A-Z])", lambda m: "_" + m.group(1).lower(), name)
    parts = [part.replace("-", "_") for part in name.split("·")]
    return "-".join(parts)


def spelling():
    own, kit = declared(), of_the_kit()
    turned = {}
    for name in own:
        if not name[0].islower() or name in kit or MADE.search(name):
            continue
        if re.search(r"[a-z0-9][A-Z]", name) or re.search(r"[a-z0-9'][-·][a-z0-9]", name):
            turned[name] = snake(name)
    # names that fall together: one that stands already, or two of one new spelling
    words = {}
    for path in files(".antt", ".rt"):
        for word in set(re.findall(WORD, read(path))):
            words.setdefault(word, set()).add(path)
    by_new = {}
    for name in sorted(turned):
        by_new.setdefault(turned[name], []).append(name)
    apart = {}
    for new, olds in sorted(by_new.items()):
        together = [o for o in olds if re.search("[A-Z]", o)] + [o for o in olds if not re.search("[A-Z]", o)]
        first = together[0]
        for other in together[1:]:
            shared = words.get(first, set()) & words.get(other, set())
            print(f"two names: {first} and {other} would both be {new}" + (f", in {sorted(shared)[0]}" if shared else ""))
            if shared:
                turned[other] = other
        for old in olds:
            # crate `one` names functions of src/ beside their definitions, each by its module
            shared = {p for p in own.get(new, set()) | own.get(old, set()) if p in words.get(new, set()) & words.get(old, set()) and "/one/" not in p}
            if not shared or turned[old] == old or new not in own:
                continue
            if re.search("[A-Z]", old):
                dashed = new.replace("_", "-")
                apart.update({(p, new): dashed for p in shared})
                print(f"stands already: beside {old}, now {new}, what was {new} is {dashed}, in {', '.join(sorted(shared))}")
            else:
                turned[old] = old
                print(f"stands already: {old} keeps its dash, in {', '.join(sorted(shared))}")
    return {old: new for old, new in turned.items() if old != new}, apart


def respelled(text, turned, quoted):
    def word(m):
        return turned.get(m.group(0), m.group(0))

    if not quoted:
        return re.sub(WORD, word, text)
    return re.sub(r"`[^`\n]*`", lambda m: re.sub(WORD, word, m.group(0)[1:-1]).join("``"), text)


def turn_antt(text, turned):
    lines = []
    for line in text.split("\n"):
        code, mark, remark = line, "", ""
        at = re.search(r"(?:^|\s)--(?=\s|$)", line)
        if at:
            code, mark, remark = line[: at.start()], line[at.start() : at.end()], line[at.end() :]
        lines.append(respelled(code, turned, False) + mark + respelled(remark, turned, True))
    return "\n".join(lines)


def turn_rt(text, turned):
    lines = []
    for line in text.split("\n"):
        if line.lstrip().startswith("//"):
            lines.append(respelled(line, turned, True))
        elif re.match(r"\s*(ghost |requires|ensures|pub ghost )|.*[≡≤→×λ]", line):
            lines.append(respelled(line, turned, False))
        else:
            lines.append(line)
    return "\n".join(lines)


def turn_edit(text, turned):
    lines = []
    for line in text.split("\n"):
        if line.startswith(("old:", "new:")):
            for old, new in OLDER:
                line = re.sub(old, new, line)
            line = respelled(line, turned, False)
        else:
            line = respelled(line, turned, True)
        lines.append(line)
    return "\n".join(lines)


def main():
    if not os.path.isdir("crates"):
        sys.exit("respell: run it at the top of the repository")
    turned, apart = spelling()
    count = 0
    pages = ["README.md"] + sorted(os.path.join("docs", n) for n in os.listdir("docs") if n.endswith(".md") and n != "PORT.md")
    for path, turn in (
        [(p, turn_antt) for p in files(".antt")]
        + [(p, turn_rt) for p in files(".rt")]
        + [(p, turn_edit) for p in files(".edit")]
        + [(p, lambda text, names: respelled(text, names, True)) for p in pages]
    ):
        text = read(path)
        here = {name: dashed for (at, name), dashed in apart.items() if at == path}
        new = turn(text, {**turned, **here})
        if new != text:
            write(path, new)
            count += 1
    print(f"respell: {len(turned)} names, {count} files")


if __name__ == "__main__":
    main()
