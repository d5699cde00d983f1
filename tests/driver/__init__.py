"""The calls and the desk program, executed against the checker.

library: the calls over ctypes. comparing: one call on the library and on the checker, every lent
byte compared. making: random books. lines: lines of orders. indexes: indexes of mentions, right and
wrong. lists: lists of calls, and demand 3 on each. refusals: every refusal of every call, damaged
books and sheets. refused_orders: those of keyings and withdrawals, damaged lines. completes: the
"complete" question, by what names which option. mentions: an index filled, kept up to date and
refused. at_least: node kind 6, its members good and damaged, steps beside its rules. wide: as many
members as there can be. cases: the papers' own. orders: the order of the rules in the book and of
an order's lines. theories: larger random theories. clause_texts: clause files in every style, and
damaged. clause_faults: each with a fault. imports: all of these imported. import_limits: numbers
and texts of any length, and the limits. clause_shapes: files as others publish them, and what they
report. desks: the desk program. From the folder above: python3 -m driver
"""


class Difference(Exception):
    """The library and the checker, or the library and a demand, do not agree."""


def expect(holds, what):
    """Something that must hold. No `assert`: python3 -O would leave that out."""
    if not holds:
        raise Difference(what)
