"""Runs the drivers: on fixed seeds, in as many processes as there are processors, or
(--soak SECONDS) on fresh ones until the time is over."""
import argparse
import multiprocessing
import os
import random
import secrets
import time
from collections import Counter
from pathlib import Path

from checker import naming

from . import (Difference, at_least, cases, clause_shapes, completes, desks, import_limits, imports,
               indexes, lists, mentions, orders, refusals, refused_orders, theories, wide)
from .comparing import CAN_REFUSE, FAULTS, NULL, SAYS, Comparing
from .library import Library

TOP = Path(__file__).resolve().parent.parent.parent
DESK = TOP / "target/bin/desk"
LISTS, ORDERS, THEORIES, DESKS = 20_000, 300, 150, 2_000
TEXTS, LARGE_TEXTS, CLAUSE_FILES = 500, 450, 300
ALL = (*cases.ALL, *refusals.ALL, *refused_orders.ALL, *completes.ALL, *mentions.ALL, *at_least.ALL,
       *wide.ALL, *imports.ALL, *import_limits.ALL)
RANDOM = (*refusals.RANDOM, *refused_orders.RANDOM, *completes.RANDOM, *mentions.RANDOM,
          *at_least.RANDOM, *wide.RANDOM)


def numbered(seed, what, count, work, share=(0, 1)):
    """work(a generator of its own), `count` times; a difference says which one it was. A share
    takes the numbers that leave its remainder."""
    remainder, shares = share
    for number in range(remainder, count, shares):
        try:
            work(random.Random("%s/%s/%d" % (seed, what, number)))
        except Difference as difference:
            raise Difference("seed %s, %s %d: %s" % (seed, what, number, difference))


def once(comparing, desk):
    """What is compared once, each part as a function of nothing."""
    for part in ALL:
        yield lambda part=part: part(comparing)
    for part in RANDOM:
        yield lambda part=part: part(comparing, random.Random(1))
    if desk:
        yield lambda: desks.long_orders(comparing, desk)
        yield lambda: desks.known_cases(comparing, desk)


def fixed(comparing, desk, share):
    """A share of what .ci/run compares."""
    remainder, shares = share
    for part in list(once(comparing, desk))[remainder::shares]:
        part()
    numbered(1, "list", LISTS, lambda rng: lists.one_list(comparing, rng), share)
    numbered(1, "order", ORDERS, lambda rng: orders.one_order(comparing, rng), share)
    numbered(1, "theory", THEORIES, lambda rng: theories.one_theory(comparing, rng), share)
    numbered(1, "text", TEXTS, lambda rng: imports.one_text(comparing, rng), share)
    numbered(1, "large text", LARGE_TEXTS, lambda rng: import_limits.one_large(comparing, rng),
             share)
    numbered(1, "clause file", CLAUSE_FILES, lambda rng: clause_shapes.one_file(comparing, rng),
             share)
    if desk:
        numbered(1, "desk", DESKS, lambda rng: desks.one_desk(comparing, desk, rng), share)


def tell_share(comparing, desk, share, sender):
    """A share in a process of its own: what it saw, and what went wrong."""
    trouble = None
    try:
        fixed(comparing, desk, share)
    except BaseException as error:  # whatever it is, it is told and nothing passes
        trouble = "%s: %s" % (type(error).__name__, error)
    sender.send((comparing.seen, trouble))


def in_shares(comparing, desk):
    """All of it, a share a processor; what they saw is counted together."""
    processes, shares = multiprocessing.get_context("fork"), os.cpu_count() or 1
    receivers = []
    for number in range(shares):
        receiver, sender = processes.Pipe(duplex=False)
        arguments = (comparing, desk, (number, shares), sender)
        processes.Process(target=tell_share, args=arguments).start()
        sender.close()  # so that a process that dies ends what can be received
        receivers.append(receiver)
    for receiver in receivers:
        try:
            seen, trouble = receiver.recv()
        except EOFError:
            seen, trouble = Counter(), "a process ended without a word"
        comparing.seen += seen
        if trouble:
            raise Difference(trouble)


def soak(comparing, desk, seconds):
    """Fresh seeds, round after round."""
    seed, end, rounds = secrets.randbelow(10 ** 12), time.time() + seconds, 0
    print("soak: seed %d" % seed, flush=True)
    while time.time() < end:
        part = "%d.%d" % (seed, rounds)
        for work in RANDOM:
            work(comparing, random.Random(part))
        numbered(part, "list", 2000, lambda rng: lists.one_list(comparing, rng))
        numbered(part, "order", 50, lambda rng: orders.one_order(comparing, rng))
        numbered(part, "theory", 50, lambda rng: theories.one_theory(comparing, rng))
        numbered(part, "text", 50, lambda rng: imports.one_text(comparing, rng))
        numbered(part, "large text", 50, lambda rng: import_limits.one_large(comparing, rng))
        numbered(part, "clause file", 50, lambda rng: clause_shapes.one_file(comparing, rng))
        if desk:
            numbered(part, "desk", 200, lambda rng: desks.one_desk(comparing, desk, rng))
        rounds += 1
    print("soak: seed %d, %d rounds, no difference" % (seed, rounds))


def due_counts(desk):
    """What must have been seen, and how often at least."""
    least = {"lists": LISTS, "orders": ORDERS, "theories": THEORIES,
             "theories whose clauses fit": THEORIES // 2}
    least.update({"roomier reports, " + said: LISTS // 10 for said in SAYS["report"]})
    least.update({"rule %d" % rule: 1 for rule in range(1, 18)})
    least.update({lists.SETTLED_AT_LEASTS: LISTS // 400, wide.TOO_MANY: 1})
    least.update({kind: 1 for kind in wide.FULL})
    least.update({kind: LISTS // 1000 for kind in lists.WITHDRAWALS})
    # Each fault of an index, alone and beside each refusal; and right ones through whole lists.
    least.update({fault: 1 for fault in FAULTS})
    least.update({kind: LISTS // 10 for kind in lists.INDEXES})
    least[NULL] = LISTS // 1000
    # Each kind of answer to "complete", by what names which option, and each way of asking it.
    least.update({kind: LISTS // 400 for kind in naming.KINDS})
    least.update({kind: LISTS // 100 for kind in lists.QUESTIONS})
    # Each form of a clause file, each fault of one, each limit that can decide; what files derive.
    least.update({**imports.due_counts(TEXTS), **clause_shapes.due_counts(CLAUSE_FILES)})
    # Every answer of every call. (A code that is found is a lookup accepted, one that is not is 7.)
    least.update({(call, number): 1 for call in CAN_REFUSE for number in [0] + CAN_REFUSE[call]})
    least.update({(call, said): 1 for call in SAYS for said in SAYS[call]})
    if desk:
        least["desk runs"] = DESKS
        least.update({"desk " + word: 1 for word in ("settled", "stopped", "contradiction")})
        least.update({"desk refused %d" % number: 1 for number in (*range(1, 9), 14)})
    return least


def tell(seen):
    """The counts, a line for each call."""
    for call in CAN_REFUSE:
        refused = ", ".join("%d: %d" % (number, seen[call, number])
                            for number in sorted(CAN_REFUSE[call]))
        said = "".join(", %s %d" % (word, seen[call, word]) for word in SAYS.get(call, ()))
        print("  %-8s accepted %d%s; refused %s" % (call, seen[call, 0], said, refused))
    for fault in (indexes.STALE, indexes.SHORT):
        print("  %s beside no refusal or one: %s" % (fault, ", ".join(
            "%s %d: %d" % (call, own, seen[call, fault, own])
            for call, kind, own in FAULTS if kind == fault)))
    imports.tell(seen)
    words = sorted(key for key in seen if isinstance(key, str) and key not in imports.KINDS)
    print("  " + ", ".join("%s %d" % (word, seen[word]) for word in words))


def main(library=None, arguments=None):
    parser = argparse.ArgumentParser(prog="tests/drive")
    parser.add_argument("--soak", type=int, metavar="SECONDS")
    parser.add_argument("--without-desk", action="store_true",
                        help="leave the desk program out, and say so")
    options = parser.parse_args(arguments)
    comparing, start = Comparing(library or Library()), time.time()
    desk = None if options.without_desk else str(DESK)
    if desk is None:
        print("=== THE DESK PROGRAM IS NOT TESTED (--without-desk) ===")
    elif not DESK.exists():
        raise SystemExit("no %s: build it with tools/build-desk, or say --without-desk" % DESK)
    try:
        if options.soak is None:
            in_shares(comparing, desk)
        else:
            soak(comparing, desk, options.soak)
    except Difference as difference:
        raise SystemExit("DIFFERENCE: %s" % difference)
    tell(comparing.seen)
    if options.soak is None:
        due = due_counts(desk)
        missing = {key: least for key, least in due.items() if comparing.seen[key] < least}
        if missing:
            raise SystemExit("seen too rarely (least due): %s" % missing)
    print("no difference, %.0f s" % (time.time() - start))


if __name__ == "__main__":
    main()
