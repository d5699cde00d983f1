"""Document 01's books to try and those of document 02's "at least k of these", as tables; single
steps that show what each rule does; orders whose lines are keyed and taken back, as document 02
says; and sheets that are complete, as it says, and others."""
from .trees import (FALSE, TRUE, at_least, conjunction as all_of, disjunction as any_of, negative,
                    positive)

P, Q, R, S = (positive(option) for option in range(4))
NOT_P, NOT_Q, NOT_R, NOT_S = (negative(option) for option in range(4))
CODES = [b"P", b"Q", b"R", b"S"]
BAD = None  # contradictory
BARRED = [(0, True), (1, True), (2, True)]  # choices: not P, not Q, not R

# rules; choices; report; rules of the house steps; rules left (... where document 01 gives none;
# document 02 gives no steps: those of kind 6 follow from its wording)
CASES = [
    ([any_of(P, all_of(P, Q))], [], [1, 0], [9, 1, 7, 5, 8], [P]),
    ([P, any_of(all_of(NOT_P, Q), FALSE)], [], BAD, [5, 8, 10, 1, 7, 3], [FALSE]),
    ([any_of(all_of(P, Q), all_of(P, R))], [], [1, 0, 0], [14, 7, 7, 8, 12, 7], [P, any_of(Q, R)]),
    ([NOT_P, any_of(P, NOT_Q), any_of(P, NOT_R), any_of(Q, R)], [], BAD, ..., [FALSE]),
    ([any_of(P, Q), any_of(NOT_P, Q)], [], [0, 0], ..., ...),
    ([any_of(all_of(P, NOT_P), Q)], [], [0, 0], ..., ...),
    ([any_of(P, Q)], [(1, True)], [1, 2], ..., [P, NOT_Q]),
    ([FALSE], [], BAD, [], [FALSE]),
    ([TRUE], [], [], [6], []),
    # document 02: "two of these four seals", with none, two and three of them not wanted
    ([at_least(2, P, Q, R, S)], [], [0, 0, 0, 0], [], [at_least(2, P, Q, R, S)]),
    ([at_least(2, P, Q, R, S)], BARRED[:2], [2, 2, 1, 1], [10, 10, 15, 15, 17, 12, 7],
     [R, S, NOT_P, NOT_Q]),
    ([at_least(2, P, Q, R, S)], BARRED, BAD, [10, 10, 10, 15, 15, 15, 16, 3], [FALSE]),
    ([at_least(3, P, Q, R, S)], BARRED[:1], [2, 1, 1, 1], [10, 15, 17, 12, 12, 7],
     [Q, R, S, NOT_P]),
    ([at_least(1, P, Q)], BARRED[:1], [2, 1], [10, 15, 17, 8], [Q, NOT_P]),
    # "16 turns k = 0 into true and k over the members into false"
    ([at_least(0, P, Q)], [], [0, 0], [16, 6], []),
    ([at_least(3, P, Q)], [], BAD, [16], [FALSE]),
    ([at_least(0)], [], [], [16, 6], []),
    ([at_least(1)], [], BAD, [16], [FALSE]),
    ([at_least(63, P, NOT_Q)], [], BAD, [16], [FALSE]),
    # "15 removes member i that is true (k less one, not below 0) or false"
    ([at_least(2, P, TRUE, Q, FALSE)], [], [0, 0], [15, 15, 17], [any_of(P, Q)]),
    ([at_least(1, TRUE, P)], [], [0], [15, 16, 6], []),
    ([at_least(0, TRUE, TRUE)], [], [], [15, 15, 16, 6], []),
    ([at_least(2, FALSE, NOT_P, FALSE)], [], BAD, [15, 15, 16], [FALSE]),
    # house order: 15 at a later place goes before 16, and 16 before 17
    ([at_least(0, P), at_least(1, TRUE)], [], [0], [15, 16, 6, 16, 6], []),
    ([at_least(1, P, Q), at_least(0, R)], [], [0, 0, 0], [16, 6, 17], [any_of(P, Q)]),
    # inside other groups, and beside what it names
    ([any_of(P, at_least(2, P, Q, R))], [], [0, 0, 0], [9, 15, 17], [any_of(P, all_of(Q, R))]),
    ([any_of(P, at_least(2, NOT_P, Q, R))], [], [0, 0, 0], [9, 15, 17],
     [any_of(P, any_of(Q, R))]),
    ([P, at_least(2, NOT_P, Q, R)], [], [1, 1, 1], [10, 15, 17, 12, 7], [P, Q, R]),
]

# rules; (rule, place, i, j); rules after, or None where the step does not apply
STEPS = [
    ([all_of(P, FALSE)], (1, 1, 1, 0), [all_of(FALSE)]),
    ([all_of(FALSE)], (1, 1, 0, 0), None),
    ([any_of(P, TRUE)], (2, 1, 1, 0), [any_of(TRUE)]),
    ([any_of(P, all_of(TRUE))], (2, 1, 1, 0), None),
    ([P, FALSE, Q], (3, 0, 1, 0), [FALSE]),
    ([FALSE], (3, 0, 0, 0), None),
    ([all_of(TRUE)], (4, 1, 0, 0), [TRUE]),
    ([any_of(FALSE)], (5, 1, 0, 0), [FALSE]),
    ([P, TRUE, Q], (6, 0, 1, 0), [P, Q]),
    ([all_of(any_of(P, Q))], (7, 1, 0, 0), [any_of(P, Q)]),
    ([all_of(P, Q)], (7, 1, 0, 0), None),
    ([P, any_of(TRUE)], (8, 2, 0, 0), [P, TRUE]),
    ([any_of(P, all_of(P, any_of(NOT_P, Q)), P)], (9, 1, 0, 0),
     [any_of(P, all_of(FALSE, any_of(TRUE, Q)), FALSE)]),
    ([any_of(P, all_of(P, Q))], (9, 1, 1, 0), None),
    ([any_of(P, Q), P], (9, 1, 0, 0), None),
    ([all_of(P, any_of(NOT_P)), NOT_P], (10, 0, 1, 0), [all_of(FALSE, any_of(TRUE)), NOT_P]),
    ([all_of(Q, all_of(TRUE, P))], (11, 1, 1, 1), [all_of(Q, P, all_of(TRUE))]),
    ([all_of(Q, all_of(TRUE, P))], (11, 1, 1, 0), None),
    ([Q, all_of(P)], (12, 0, 1, 0), [Q, P, TRUE]),
    ([all_of(P, all_of(FALSE, R), Q)], (13, 1, 1, 0), [all_of(P, FALSE, R, Q)]),
    ([all_of(TRUE)], (13, 1, 0, 0), [TRUE]),
    ([all_of(TRUE, TRUE)], (13, 1, 0, 0), None),
    ([any_of(P, all_of(Q, P, P), NOT_R, all_of(P))], (14, 1, 1, 1),
     [any_of(P, NOT_R, all_of(P, any_of(all_of(Q, P), TRUE)))]),
    ([any_of(P, all_of(Q, P, P), NOT_R, all_of(P))], (14, 1, 1, 2), None),
    ([any_of(P, all_of(Q, P, P), NOT_R, all_of(P))], (14, 1, 3, 0), None),
    ([any_of(P, all_of(P))], (14, 1, 1, 0), None),
    ([any_of(all_of(P), all_of(NOT_P))], (14, 1, 0, 0), None),
    ([any_of(all_of(P), all_of(P), all_of(Q))], (14, 1, 0, 0), None),
    ([any_of(all_of(P), all_of(P), FALSE)], (14, 1, 0, 0), None),
    # with kind 6 below: 7 and 8 put it in its parent's place, 9 and 10 put constants in place of
    # its marks, and for 13 and 14 it is no all-of
    ([all_of(at_least(2, P, Q, R))], (7, 1, 0, 0), [at_least(2, P, Q, R)]),
    ([any_of(at_least(1, NOT_P))], (8, 1, 0, 0), [at_least(1, NOT_P)]),
    ([any_of(at_least(2, P, Q, NOT_R), NOT_P, at_least(0))], (9, 1, 1, 0),
     [any_of(at_least(2, TRUE, Q, NOT_R), NOT_P, at_least(0))]),
    ([any_of(at_least(2, P, Q, NOT_R), R)], (9, 1, 1, 0),
     [any_of(at_least(2, P, Q, TRUE), R)]),
    ([at_least(1, P, Q), all_of(at_least(3, R, NOT_P)), P], (10, 0, 2, 0),
     [at_least(1, TRUE, Q), all_of(at_least(3, R, FALSE)), P]),
    ([all_of(P, at_least(2, Q, R))], (11, 1, 1, 0), None),
    ([at_least(2, Q, R)], (12, 0, 0, 0), None),
    ([all_of(P, at_least(2, Q, R))], (13, 1, 1, 0), None),
    ([all_of(at_least(1, P), all_of(Q))], (13, 1, 1, 0), None),
    ([any_of(all_of(P), at_least(1, P), all_of(P))], (14, 1, 0, 0), None),
    ([any_of(all_of(at_least(1, P), Q), all_of(Q))], (14, 1, 0, 1),
     [any_of(all_of(Q, any_of(all_of(at_least(1, P)), TRUE)))]),
    # document 02's own three
    ([P, at_least(2, P, TRUE, NOT_Q)], (15, 2, 1, 0), [P, at_least(1, P, NOT_Q)]),
    ([at_least(2, P, FALSE, NOT_Q)], (15, 1, 1, 0), [at_least(2, P, NOT_Q)]),
    ([at_least(0, TRUE)], (15, 1, 0, 0), [at_least(0)]),
    ([at_least(3, FALSE, FALSE)], (15, 1, 1, 0), [at_least(3, FALSE)]),
    ([at_least(2, P, FALSE)], (15, 1, 0, 0), None),
    ([at_least(2, P, FALSE)], (15, 1, 2, 0), None),
    ([at_least(2, P, FALSE)], (15, 1, 1, 1), None),
    ([at_least(2)], (15, 1, 0, 0), None),
    ([all_of(FALSE)], (15, 1, 0, 0), None),
    ([P, at_least(0, P, TRUE), Q], (16, 2, 0, 0), [P, TRUE, Q]),
    ([at_least(3, P, TRUE), Q], (16, 1, 0, 0), [FALSE, Q]),
    ([at_least(1)], (16, 1, 0, 0), [FALSE]),
    ([at_least(0)], (16, 1, 0, 0), [TRUE]),
    ([at_least(0, P, Q)], (16, 1, 1, 0), None),
    ([at_least(0, P)], (16, 1, 1, 0), None),
    ([at_least(0, P)], (16, 1, 0, 1), None),
    ([at_least(2, P, Q)], (16, 1, 0, 0), None),
    ([at_least(1, P, Q)], (16, 1, 0, 0), None),
    ([any_of(at_least(1, P, NOT_Q, FALSE), R)], (17, 2, 0, 0),
     [any_of(any_of(P, NOT_Q, FALSE), R)]),
    ([at_least(2, TRUE, NOT_P)], (17, 1, 0, 0), [all_of(TRUE, NOT_P)]),
    ([at_least(1, P)], (17, 1, 0, 0), [any_of(P)]),
    ([at_least(0)], (17, 1, 0, 0), [TRUE]),
    ([at_least(1)], (17, 1, 0, 0), [FALSE]),
    ([at_least(1, P, Q)], (17, 1, 1, 0), None),
    ([at_least(1, P, Q)], (17, 1, 0, 1), None),
    ([at_least(2, P, Q, R)], (17, 1, 0, 0), None),
    ([at_least(0, P)], (17, 1, 0, 0), None),
    ([at_least(2, P)], (17, 1, 0, 0), None),
    ([all_of(P)], (17, 1, 0, 0), None),
    ([any_of(P)], (16, 1, 0, 0), None),
]

# Document 02's orders, each on a book with the options P, Q and R. Rules; first lines, which nobody
# keyed; calls, each with its (refusal, value); the lines left; the report. A call is a keying, by
# option and barred; the taking back of line k, with the book itself or with other rules; or a run,
# by its budget, whose value is 2 x count and 1 more if settled.
ACCEPTED, MOST = (0, 0), 2 ** 64 - 1
FULL = [TRUE, any_of(TRUE, *[P] * 2046)]  # weight 4,096; a run of 4 steps leaves nothing of it
FIVE_STEPS = [any_of(P, all_of(P, Q))]
ORDERS = [
    ([any_of(P, Q)], [], [("key", (1, True), ACCEPTED)], [(1, True)], [1, 2, 0]),
    ([any_of(P, Q)], [], [("key", (1, True), ACCEPTED), ("withdraw", (0,), ACCEPTED)],
     [], [0, 0, 0]),
    # "moves later lines up"
    ([], [(0, False), (1, True), (2, False)], [("withdraw", (0,), ACCEPTED)],
     [(1, True), (2, False)], [0, 2, 1]),
    ([], [(0, False), (1, True), (2, False)], [("withdraw", (1,), ACCEPTED)],
     [(0, False), (2, False)], [1, 0, 1]),
    ([], [(0, False), (1, True), (2, False)], [("withdraw", (2,), ACCEPTED)],
     [(0, False), (1, True)], [1, 2, 0]),
    # a contradiction is taken back, also after a run has left nothing but it
    ([any_of(NOT_P, NOT_Q)], [],
     [("key", (0, False), ACCEPTED), ("key", (1, False), ACCEPTED), ("run", (MOST,), (0, 11)),
      ("withdraw", (1,), ACCEPTED)], [(0, False)], [1, 2, 0]),
    # "while a run stands stopped: the run's work is dropped and the next run counts from zero"
    (FIVE_STEPS, [],
     [("key", (2, True), ACCEPTED), ("run", (2,), (0, 4)), ("withdraw", (0,), ACCEPTED),
      ("run", (MOST,), (0, 11))], [], [1, 0, 0]),
    (FIVE_STEPS, [],
     [("key", (2, True), ACCEPTED), ("run", (2,), (0, 4)), ("withdraw", (1,), (13, 0)),
      ("run", (MOST,), (0, 7))], [(2, True)], [1, 0, 2]),
    # "starts with any lent lines": no choices before the first accepted withdrawal, then they are
    ([any_of(P, Q)], [(0, True)], [], [(0, True)], [0, 0, 0]),
    ([any_of(P, Q)], [(0, True)], [("key", (2, False), ACCEPTED)], [(0, True), (2, False)],
     [0, 0, 1]),
    ([any_of(P, Q)], [(0, True)],
     [("key", (2, False), ACCEPTED), ("withdraw", (2,), (13, 0))], [(0, True), (2, False)],
     [0, 0, 1]),
    ([any_of(P, Q)], [(0, True)],
     [("key", (2, False), ACCEPTED), ("withdraw", (1,), ACCEPTED)], [(0, True)], [2, 1, 0]),
    # "the loaded rules are those of the book lent to it", and no others from then on
    ([any_of(P, Q)], [],
     [("key", (1, True), ACCEPTED), ("key", (0, True), ACCEPTED),
      ("withdraw", (1, [any_of(Q, R)]), ACCEPTED)], [(1, True)], [0, 2, 1]),
    ([P], [(1, True)], [("withdraw", (0, []), ACCEPTED)], [], [0, 0, 0]),
    # 13: "no such line"
    ([P], [(1, False)],
     [("withdraw", (k,), (13, 0)) for k in (1, 2, 63, 64, 65_536, 2 ** 32, 2 ** 63, MOST)],
     [(1, False)], [1, 0, 0]),
    ([], [], [("withdraw", (0,), (13, 0))], [], [0, 0, 0]),
    # 14: "list full", before 7
    ([], [(0, False)] * 63,
     [("key", (3, False), (7, 0)), ("key", (1, True), ACCEPTED), ("key", (1, True), (14, 0)),
      ("key", (3, False), (14, 0)), ("key", (65_536, False), (14, 0))],
     [(0, False)] * 63 + [(1, True)], [0, 2, 0]),
    ([], [(0, False)] * 64,
     [("withdraw", (64,), (13, 0)), ("withdraw", (63,), ACCEPTED), ("key", (2, True), ACCEPTED),
      ("key", (1, True), (14, 0))], [(0, False)] * 63 + [(2, True)], [1, 0, 2]),
    # 7 is for what is not below N, however many bits it has
    ([], [], [("key", (option, False), (7, 0)) for option in (3, 65_536, 2 ** 32, 2 ** 63, MOST)],
     [], [0, 0, 0]),
    # "Refusal 8 applies if book weight plus twice the remaining lines is over 4,096": what was
    # keyed into room that steps had made cannot always be taken back
    (FULL, [], [("key", (0, False), (8, 0)), ("run", (MOST,), (0, 9)),
                ("key", (0, False), ACCEPTED), ("key", (1, True), ACCEPTED),
                ("withdraw", (0,), (8, 0)), ("withdraw", (1,), (8, 0)),
                ("withdraw", (2,), (13, 0)), ("withdraw", (1, []), ACCEPTED)],
     [(0, False)], [1, 0, 0]),
    (FULL, [], [("run", (MOST,), (0, 9)), ("key", (1, True), ACCEPTED),
                ("withdraw", (0,), ACCEPTED), ("run", (MOST,), (0, 9))], [], [0, 0, 0]),
]

# Document 02's "complete", for the options P, Q and R: the rules and choices on a sheet; the budget
# of a run on it; the rules of the book lent; the lines lent; whether the sheet is complete.
EITHER = [any_of(P, Q), any_of(NOT_P, NOT_Q)]  # of R, a reserved code, no rule says a word
COMPLETE = [
    # "Orders hang as incomplete because of codes that engineering reserved and no rule mentions":
    # P is in, Q is out, R is open, and nothing asks for R
    (EITHER + [P], 0, EITHER, [(0, False)], True),
    (EITHER + [P], MOST, EITHER, [(0, False)], True),
    (EITHER, 0, EITHER, [], False),
    (EITHER + [R], 0, EITHER, [(2, False)], False),
    # "or some choice names": also where the line was never keyed, and is on no sheet
    (EITHER + [P, NOT_R], 0, EITHER, [(0, False), (2, True)], True),
    (EITHER + [P], 0, EITHER, [(0, False), (2, True)], False),
    (EITHER + [P], MOST, EITHER, [(0, False), (2, False)], False),
    (EITHER + [P], 0, EITHER, [(2, False)] + [(0, False)] * 63, False),
    (EITHER + [P], 0, EITHER, [(0, False)] * 63 + [(2, False)], False),
    (EITHER + [P], 0, EITHER, [(0, False)] * 63 + [(1, False)], True),
    # "since a step can remove the last mark of an option": of this one a run leaves P alone
    (FIVE_STEPS, 0, FIVE_STEPS, [], False),
    (FIVE_STEPS, MOST, FIVE_STEPS, [], False),
    (FIVE_STEPS, MOST, FIVE_STEPS, [(2, True)], False),
    (FIVE_STEPS, MOST, FIVE_STEPS, [(1, True)], False),
    (FIVE_STEPS + [NOT_Q], MOST, FIVE_STEPS, [(1, True)], True),
    ([P, any_of(TRUE, R)], MOST, [P, any_of(TRUE, R)], [], False),
    # "judged on the book and the choices", and so never on the sheet: what it alone names may be
    # open, with a mark of it or without
    (FIVE_STEPS, 0, [P], [], True),
    (FIVE_STEPS, MOST, [P], [(0, True)], True),
    ([P, any_of(Q, R)], 0, [P], [], True),
    ([P, any_of(Q, R)], 0, [P], [(1, True)], False),
    ([P, any_of(Q, R)], 0, [], [(2, False)], False),
    # a mark of the book, plain or barred, at any depth and whatever its rule says; members too
    ([P], 0, [Q], [], False),
    ([P], 0, [P, NOT_Q], [], False),
    ([P], 0, [NOT_P], [], True),
    ([P], 0, [P, TRUE, any_of(P, all_of(P, all_of(NOT_R)))], [], False),
    ([P, R], 0, [P, TRUE, any_of(P, all_of(P, all_of(NOT_R)))], [], True),
    ([P], 0, [any_of(TRUE, Q)], [], False),
    ([P], 0, [at_least(0, P, Q)], [], False),
    ([P], 0, [at_least(2, TRUE, P, NOT_R)], [], False),
    ([P], 0, [at_least(3, TRUE, NOT_P)], [], True),
    ([P], 0, [at_least(1, TRUE), at_least(2), all_of(TRUE, FALSE)], [], True),
    # nothing named
    ([], 0, [], [], True),
    ([any_of(P, Q)], 0, [], [], True),
    ([any_of(P, Q)], MOST, [TRUE, FALSE], [], True),
    # contradictory, whatever is named, and whatever the book lent means
    ([FALSE], 0, [], [], False),
    ([P, NOT_P], 0, [], [], False),
    ([P, NOT_P], MOST, [P], [(0, False)], False),
    ([P, Q, R, FALSE], 0, [P, Q, R], [], False),
    (EITHER + [P, Q], 0, EITHER, [(0, False), (1, False)], False),
    (EITHER + [P, Q], MOST, EITHER, [(0, False), (1, False)], False),
    ([P, Q], 0, [P, NOT_P, FALSE], [], True),
    # all are marked, as document 01 had it: complete, whatever is named
    ([P, NOT_Q, R], 0, [], [], True),
    ([P, NOT_Q, R], 0, [any_of(P, Q), NOT_R], [(0, True), (1, False)], True),
]
