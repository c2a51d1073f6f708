#!/usr/bin/env python3
"""Gives the repository's own definitions and lemmas the spelling that today's library has: words in snake case, facts and types in camel case,
and a dash only beside a name of its own. Run once, at the top, after the toolchain's own respelling, with what that said in the folder SAID:

    tools/respell.py SAID

Functions of src/, exported C names, strings, inputs and outputs keep their names. A name whose new spelling already stands for something else keeps
its old one and is printed.
"""
import glob
import re
import sys

# What an identifier of a proof or a definition may hold.
WORD = r"[^\s:(){}\[\],;.λ→`\"|⟨⟩]"
DECLARED = re.compile(r"^\s*((?:(?:unfoldable|abbrev|pub)\s+)*)(" + WORD + r"+)\s+:\s(.*)$", re.M)
TOKEN = re.compile(r"(?<![\w'’-])([A-Za-zα-ωΑ-Ω_][\w'’₀-₉-]*)")


def files(*patterns):
    return sorted(f for p in patterns for f in glob.glob(p, recursive=True))


def snake(word):
    return re.sub(r"(?<=[a-z0-9])(?=[A-Z])", "_", word).lower() if re.match(r"[a-z]", word) else word


def camel(word):
    return word[0].upper() + word[1:]


def declared(paths):
    """The names declared in the files, each with whether it is a fact; the answers to goals, whose names the toolchain gives, aside."""
    out = {}
    for path in paths:
        text = open(path).read()
        for m in DECLARED.finditer(text):
            if m.group(3).startswith(("tie.", "goal.")):
                continue
            out.setdefault(m.group(2), False)
            # a signature may go over several lines, each further in than the first
            rest = text[m.end(3):].split("\n")[1:]
            more = []
            for line in rest:
                if line[:1].isspace() and line.strip():
                    more.append(line.strip())
                else:
                    break
            if re.search(r"Type 0\s*$", " ".join([m.group(3)] + more)):
                out[m.group(2)] = True
    return out


def fields(paths):
    """The labels of records."""
    out = set()
    for path in paths:
        inside = False
        for line in open(path):
            if re.match(r"\s*(?:pub\s+)?record\s", line):
                inside = True
            elif line.strip() and not line[0].isspace():
                inside = False
            elif inside and (m := DECLARED.match(line)):
                out.add(m.group(2))
    return out


def code_and_comment(line, mark):
    """A line's code, and from the mark of a comment on its comment."""
    at = line.find(mark)
    return (line, "") if at < 0 else (line[:at], line[at:])


def main(said):
    antt = files("crates/*/specs/**/*.antt", "crates/*/proofs/**/*.antt")
    rt = files("crates/*/src/**/*.rt")
    edits = files("crates/*/must-fail/*.edit")
    pages = files("README.md", "docs/*.md", ".ci/*", "measure/**/*.antt", "measure/**/*.rt", "measure/**/*.edit")
    specs = declared(files("crates/*/specs/**/*.antt"))
    laws = declared(files("crates/*/proofs/**/*.antt"))
    own = {**laws, **specs}
    labels = fields(antt)
    code = set(re.findall(r"\bfn (\w+)", "\n".join(open(f).read() for f in rt)))
    known = {snake(n) for n in specs if "-" not in n} | code | {
        "length", "take", "drop", "map", "get", "set", "sum", "get_or", "append", "replicate", "mod", "div", "and", "or", "xor", "filter", "fold"}

    new = {"notBegun": "not_begun_tags"}
    for name, fact in own.items():
        if not re.match(r"[a-z]", name) or name in new:
            continue
        parts = name.split("-")
        if name in labels or name.endswith("-spec"):
            to = "_".join(snake(p) for p in parts)
        elif len(parts) == 1:
            to = camel(name) if fact and re.search(r"[A-Z]", name) else snake(name)
        else:
            # the definition that a law is about comes first, and the dash behind it
            parts = [snake(p) for p in parts]
            about = max((n for n in range(1, len(parts)) if "_".join(parts[:n]) in known), default=0)
            to = "_".join(parts[:about]) + ("-" if about else "") + "_".join(parts[about:])
        if to != name:
            new[name] = to
    # a lemma that would have its definition's name gets `_lem`, and a label of a record `_law`
    used = {}
    for name in sorted(own, key=lambda n: (n in labels, n not in specs, "-" in n, n)):
        to = new.get(name, name)
        if to in used:
            to += "_law" if name in labels else "_lem"
        if to in used:
            print("fell together:", name, "and", used[to])
            continue
        used[to] = name
        if to != name:
            new[name] = to

    # what the toolchain's script respelled: the edits and the pages still have the old form
    theirs = {}
    for path in files(said + "/*.txt"):
        for m in re.finditer(r"in snake case now: (.*?)\. Your other names", open(path).read()):
            for name in m.group(1).split(", "):
                theirs[name] = snake(name).replace("-", "_")

    def put(text, table, dashes=True):
        """The text with its names turned; without `dashes` only those that are no English words."""
        return TOKEN.sub(lambda m: table.get(m.group(1), m.group(0)) if dashes or re.search("[a-z][A-Z]", m.group(1)) else m.group(0), text)

    def turn(paths, mark, table, dashes=lambda code: True):
        for path in paths:
            lines = []
            for line in open(path):
                code, comment = code_and_comment(line, mark) if mark else ("", line)
                # in a page a name stands between backticks
                pieces = re.split(r"(`[^`]*`)", comment)
                comment = "".join(put(p, table, p.startswith("`")) for p in pieces)
                lines.append(put(code, table, dashes(code)) + comment)
            text = "".join(lines)
            if text != open(path).read():
                open(path, "w").write(text)

    turn(antt, "--", new)
    turn(rt, "//", new, lambda code: code.startswith("ghost use"))
    turn(edits, "#", {**theirs, **new})
    turn(pages, None, {**theirs, **new})
    print(len(new), "names")


if __name__ == "__main__":
    main(sys.argv[1])
