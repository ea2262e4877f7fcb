#!/usr/bin/env python3
"""The places of docs/DESIGN-PASS.md, found by patterns in crates/*/src: `tools/design_places.py` prints how many each point has,
`tools/design_places.py 3` also where point 3's are."""
import collections
import glob
import re
import sys

FILES = sorted(glob.glob("crates/*/src/*.rt"))
FN = re.compile(r"^(?P<indent> *)(?:pub(?:\([a-z]+\))? )?(?:const )?(?:extern \"C\" )?fn (?P<name>\w+)(?:<[^{]*?>)?\((?P<args>[^{]*?)\)(?P<rest>.*?)\n(?P=indent)\{\n(?P<body>.*?)\n(?P=indent)\}$", re.M | re.S)


def code(text):
    return re.sub(r"//[^\n]*", "", text)


def lines(pattern, keep=lambda text, match: True):
    for path in FILES:
        text = open(path).read()
        for match in re.finditer(pattern, code(text) if False else text, re.M):
            start = text.rfind("\n", 0, match.start()) + 1
            if text[start:match.start()].lstrip().startswith("//"):
                continue
            if keep(text, match):
                yield path, text.count("\n", 0, match.start()) + 1, text[start:text.find("\n", match.start())].strip()


def functions():
    for path in FILES:
        text = open(path).read()
        for match in FN.finditer(text):
            yield path, text.count("\n", 0, match.start()) + 1, match


def parameters(args):
    args = re.sub(r"\[[^\]]*\]", "[]", args)
    return len([a for a in args.split(",") if a.strip()])


def shape(body):
    body = re.sub(r"\s+", " ", code(body))
    body = re.sub(r"\b(u8|u16|u32|u64|usize)\b", "T", body)
    body = re.sub(r"\b[A-Z][A-Z0-9_]+\b|\b\d[\d_xA-Fa-f]*\b", "N", body)
    return re.sub(r"\b(?!T\b|N\b|let\b|mut\b|if\b|else\b|for\b|in\b|while\b|return\b|match\b)[a-z_]\w*\b", "x", body)


def twins():
    groups = collections.defaultdict(list)
    for path, line, match in functions():
        form = shape(match["body"])
        if len(form) > 40:
            groups[path.split("/")[1], parameters(match["args"]), form].append((path, line, match["name"]))
    for group in groups.values():
        if len(group) > 1:
            yield from group


def facts():
    found = collections.defaultdict(list)
    for path in FILES:
        text = open(path).read()
        for match in re.finditer(r"^ *requires [^{\n]*\{(.*)\}$", text, re.M):
            for fact in match[1].split(" × "):
                fact = re.sub(r"\.(now|old|new)\b", "", fact.strip().strip("()"))
                found[path.split("/")[1], fact].append((path, text.count("\n", 0, match.start()) + 1, fact))
    for places in found.values():
        if len(places) > 2:
            yield places[0][0], places[0][1], f"{places[0][2]} ({len(places)} times)"


POINTS = {
    "1a an enum of an answer or a refusal, or of a value or none": lambda: lines(r"^ +((Refused|Fault)\(u16\)|Missing|Waiting|Allowed),$"),
    "1b a refusal by its number": lambda: lines(r"(Refused|Fault)\(([0-9]+|EMPTY_OR_FULL|WRONG_KIND|NO_END)\)"),
    "1c a flag or a number of 0 beside a value, or for one": lambda: lines(r"\b(going|stored|met): bool|seek: &mut \[u64; 4\]|stop: u64|-> u16\n +(requires|ensures) .*(fault_of|seek)"),
    "1d a constant for a kind": lambda: lines(r"^(pub )?const (VERSION|TRUTH|GOES_ON|STOPS|STOPPED|EMPTY_OR_FULL|WRONG_KIND|NO_END|PUSH_GUID|PUSH_VERSION|VERSION_STR|AND|OR|NOT|TRUE|FALSE|EQ|GT|GTE|LT|LTE|END|SECTION_\w+): \w+ ="),
    "2 functions of one crate with bodies of one shape": twins,
    "3 loops that are no `for`": lambda: lines(r"^ *('\w+: )?(while|loop)\b"),
    "4 copying, comparing, converting or the least of two by hand": lambda: lines(r"fn (with_phase|at_here|at_stage|state_with|cursor_of|place_of|counted|begun|other_mark|same_guid|alike|zero_mark|lesser|least|past|saturating_sub|wide|mode_of|bit|both|either|refused_with|word|high)\("),
    "5a functions of seven parameters and more": lambda: ((p, l, f"{m['name']} ({parameters(m['args'])})") for p, l, m in functions() if parameters(m["args"]) > 6),
    "5b a fact that three or more functions require": facts,
    "6 an array with a length or another array beside it, or in a struct's place": lambda: lines(r"^ *(pub )?(lefts|pads|versions|header|values|kinds|seek|tail|map|array|marks): (&mut |&)?(\[|u64)|(, |\()(lefts|pads|versions|header|values|kinds|seek|tail|map|array|marks): (&mut |&)?(\[|u64)"),
    "7 a switch on which step to run": lambda: lines(r"match called|match number\(|if (self\.)?stop|stop: u64|GOES_ON,|STOPS\)"),
}


def main():
    for name, places in POINTS.items():
        found = list(places())
        print(f"{len(found):4}  {name}")
        if sys.argv[1:] and name.startswith(tuple(sys.argv[1:])):
            for path, line, text in found:
                print(f"        {path}:{line}: {text}")


main()
