"""Expected output that is stored beside the tests, and written from the model alone."""

import sys
from pathlib import Path

HERE = Path(__file__).resolve().parent


def hold(name, text):
    """Fails where the model's text is not the stored one; with --write it is stored instead."""
    path = HERE / "expected" / (name + ".txt")
    if "--write" in sys.argv:
        path.write_text(text)
    elif not path.is_file() or path.read_text() != text:
        sys.exit("tests/%s: tests/expected/%s.txt is not what the model gives; see tests/README.md" % (name, name))
