"""The index of mentions: beside a sheet, how often it names each option, and where first.

Document 02, U5: "Keep beside the sheet, option after option, two 16-bit numbers each: the count of
its marks and the place of the first (65,535 if none). Numbers past twice N stay." An index is a
list of numbers, or None where a call is lent none (the desk program keeps none).
"""
from . import Refused
from .sheets import read
from .trees import preorder

NO_PLACE = 65_535


def length(options):
    """ "twice N" """
    return 2 * options


def fresh_count(options, root):
    """Document 01: "nodes counted from the root, 0", "Kinds 1 and 2 are marks"."""
    places = [[] for _ in range(options)]
    for place, node in enumerate(preorder(root)):
        if node.literal:
            places[node.literal.option].append(place)
    return [number for found in places for number in (len(found), min(found, default=NO_PLACE))]


def is_short(options, index):
    return len(index) < length(options)


def is_stale(options, root, index):
    """ "long enough but unequal to the fresh count" """
    return (not is_short(options, index)
            and index[:length(options)] != fresh_count(options, root))


def check(options, root, index):
    """ "An index long enough but unequal to the fresh count before the call is refused 11": after
    6, as every 11 but the sheet's own, and before all that comes after 11."""
    if index is not None and is_stale(options, root, index):
        raise Refused(11)


def check_length(options, index):
    """ "one shorter than twice N 12": document 01 tests 12 last."""
    if index is not None and is_short(options, index):
        raise Refused(12)


def fill(sheet, index):
    """The index after. "One call fills it from any sheet, whatever it held." """
    options, root = read(sheet)
    check_length(options, index)
    return fresh_count(options, root) + index[length(options):]


def brought_up_to_date(sheet, index):
    """The index that a call leaves beside the sheet that it leaves."""
    return None if index is None else fill(sheet, index)
