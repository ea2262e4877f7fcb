"""A section file that comes in portions, as request c of 02 describes it, with the long headers of i.

The portions' cuts decide nothing, so the functions take all the bytes that came, and the total that was
announced. Bytes past the total only count.
"""

from model.sections import FRAMEWORK, Fault, stream_limit, walk


class Came(bytes):
    """The bytes that came, with zeros for those that did not: no fault that is found depends on them."""

    def __getitem__(self, place):
        return super().__getitem__(place) if isinstance(place, slice) or place < len(self) else 0


def announce(total, mode=FRAMEWORK):
    """The announcement's number: 0 or 206."""
    return 206 if total > stream_limit(mode) else 0


def fault(came, total, mode=FRAMEWORK):
    """(number, after how many bytes it was found) of the first fault found, or None"""
    if announce(total, mode):
        return 206, 0
    try:
        for _ in walk(Came(came[:total]), 0, total, 1, mode):
            pass
    except Fault as first:
        number, place = first.args
        if place <= len(came):
            return number, place
    return None


def finish(came, total, kind, instance, mode=FRAMEWORK):
    """(number, sections on the full walk, first byte, end)"""
    found = fault(came, total, mode)
    if found:
        return found[0], 0, 0, 0
    if len(came) != total:
        return 208, 0, 0, 0
    met = list(walk(came, 0, total, 1, mode))
    matches = [(first, end) for k, first, end in met if k == kind]
    if instance >= len(matches):
        return 14, 0, 0, 0
    return (0, len(met)) + matches[instance]
