#!/usr/bin/env python3
"""Makes what the programs `trial` and `lister` are run on and what they must print.

make.py            writes stdin and stdout of both crates, and samples/A.fv
make.py --check    fails where the committed files differ
make.py --count    prints the number of cases by subject
"""

import re
import sys
from collections import Counter
from pathlib import Path

sys.dont_write_bytecode = True

import trial
from cases import editions, first_match, headers, long_headers, portions, protection, service, streams
from model.volume import listing

ROOT = Path(__file__).resolve().parent.parent
LONGEST = 1376256       # bytes of a script that the program reads


def said(name):
    """The refusal numbers that a case's name ends in, after a colon."""
    end = re.search(r": (\d+(?:, \d+)*)$", name)
    return {int(no) for no in end.group(1).split(", ")} if end else set()


def checked(cases):
    """The (subject, case) given: each name stands once in its subject, and says which refusals the model gives."""
    seen = set()
    for subject, case in cases:
        assert (subject, case.name) not in seen, (subject, case.name)
        seen.add((subject, case.name))
        assert said(case.name) == set(case.numbers) - {0, 4}, (subject, case.name, case.numbers)
        yield subject, case


def made():
    parts = (headers, editions, service, protection, streams, long_headers, first_match, portions)
    return list(checked(pair for part in parts for pair in part.cases()))


def files(cases):
    script = trial.items(trial.number(len(cases)), *[case.script for _, case in cases])
    assert len(script) <= LONGEST, len(script)
    sample = bytes(trial.prepared(headers.A, trial.ERASED, 2048))
    return {
        "crates/trial/stdin": script,
        "crates/trial/stdout": "".join(line + "\n" for _, case in cases for line in case.lines).encode(),
        "crates/lister/stdin": sample,
        "crates/lister/stdout": listing(sample).encode(),
        "samples/A.fv": sample,
    }


def count(cases):
    for subject, n in Counter(subject for subject, _ in cases).items():
        print("%s\t%d" % (subject, n))
    print("cases\t%d\nlines\t%d" % (len(cases), sum(len(case.lines) for _, case in cases)))


def main():
    cases = made()
    if "--count" in sys.argv:
        return count(cases)
    wrong = 0
    for path, data in files(cases).items():
        if "--check" not in sys.argv:
            (ROOT / path).write_bytes(data)
        elif not (ROOT / path).is_file() or (ROOT / path).read_bytes() != data:
            wrong += 1
            print("tests/check: %s is not what the cases make; see tests/README.md" % path)
    if "--check" in sys.argv:
        print("tests/check: %d cases, %d files differ" % (len(cases), wrong))
    sys.exit(1 if wrong else 0)


if __name__ == "__main__":
    main()
