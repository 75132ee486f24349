#!/usr/bin/env python3
"""twins.py ROOT [LEAST]: functions of src/ whose bodies are alike but for names and numbers.
twins.py --long ROOT [MOST]: functions of at least MOST parameters (default 6).

A body is taken as its tokens, each name of its own as `x` and each number, byte or text as `0`. Functions of at least
LEAST tokens (default 12) with the same sequence are printed together. It goes by text: what it prints is a place to
look, and an empty list says nothing of functions that do the same in other words.
"""
import collections
import glob
import re
import sys

KEPT = set("if else match while for in loop return let mut fn as true false break".split())
TOKEN = re.compile(r"b?'(?:\\.|[^'])'|b?\"[^\"]*\"|\w+|[^\w\s]")


def closed(text, start, opening, closing):
    """The place after the bracket that closes the one at `start`."""
    depth = 0
    for place in range(start, len(text)):
        depth += {opening: 1, closing: -1}.get(text[place], 0)
        if depth == 0:
            return place + 1
    return len(text)


def functions(root):
    """Path, name, parameters and body of each function with a body."""
    for path in sorted(glob.glob(root + "/crates/*/src/**/*.rt", recursive=True)):
        text = re.sub(r"//[^\n]*", "", open(path, encoding="utf-8").read())
        for found in re.finditer(r"\bfn (\w+)", text):
            first = text.find("(", found.end())
            place = closed(text, first, "(", ")")
            parameters = text[first + 1 : place - 1]
            # clauses carry braces before the body does
            while clause := re.match(r"\s*(->[^\n{]+)?\s*((requires|ensures)\*?( \w+)?\s*)?\{", text[place:]):
                start = place + clause.end() - 1
                place = closed(text, start, "{", "}")
                if not clause.group(2):
                    yield path.replace(root + "/crates/", ""), found.group(1), parameters, text[start:place]
                    break


def shape(body):
    """The tokens of a body without what is its own."""

    def plain(token):
        if token in KEPT or not re.match(r"[\w'\"]", token):
            return token
        return "0" if re.match(r"\d|b?['\"]", token) else "x"

    return tuple(plain(token) for token in TOKEN.findall(body))


def twins(root, least):
    groups = collections.defaultdict(list)
    for path, name, _, body in functions(root):
        groups[shape(body)].append(f"{path}:{name}")
    for tokens, alike in sorted(groups.items(), key=lambda group: -len(group[0])):
        if len(alike) > 1 and len(tokens) >= least:
            print(len(tokens), "tokens:", ", ".join(alike))


def long(root, most):
    for path, name, parameters, _ in functions(root):
        count = len(re.findall(r"(?:^|,)\s*(?:mut )?(?:\w+\s*:|&?(?:mut )?self)", parameters))
        if count >= most:
            print(count, f"{path}:{name}")


if __name__ == "__main__":
    words = sys.argv[1:]
    if words[:1] == ["--long"]:
        long(words[1], int(words[2]) if len(words) > 2 else 6)
    elif words:
        twins(words[0], int(words[1]) if len(words) > 1 else 12)
    else:
        sys.exit(__doc__)
