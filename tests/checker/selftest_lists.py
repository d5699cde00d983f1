"""The checker on small random books: demand 2's round trips, what each step keeps, and demand 3 on
random lists of keyings, withdrawals, single steps and runs, with an index lent on through each and
"complete" asked on the way."""
from . import calls, meaning, naming, rules, sheets
from .books import build
from .cases import CODES
from .demands import Account, cube, is_settled
from .expecting import BLANK, MOST, counted, done, expect, loaded
from .random_trees import random_at_least, random_mark
from .trees import CONJUNCTION, DISJUNCTION, ROOT, Tree, weight

# What the random lists must have met: each rule, each answer of a keying and of a withdrawal (8
# needs a sheet that is nearly full: selftest_keying), each fault of an index beside each answer
# that is due without one, and each kind of answer to "complete".
ANSWERS = [*(("key", due) for due in (0, 7, 11, 14)), *(("withdraw", due) for due in (0, 11, 13)),
           ("step", 0), ("run", 0)]
STALE, SHORT = 11, 12  # the faults of an index, by their refusals
TO_MEET = [*rules.TABLE, *ANSWERS, *((*answer, fault) for answer in ANSWERS
                                     for fault in (STALE, SHORT)),
           ("complete", 0), ("complete", 11), *naming.KINDS]
PAST = [4097, 65_535, 0]  # numbers of an index past twice N


def random_tree(rng, options, depth):
    way = rng.random()
    if depth == 0 or way < 0.4:
        return random_mark(rng, options)
    if way < 0.49:
        return random_at_least(rng, options)
    children = rng.choice((0, 1, 1, 2, 2, 2, 2, 3, 3))
    return Tree(rng.choice((CONJUNCTION, DISJUNCTION)),
                [random_tree(rng, options, depth - 1) for _ in range(children)])


def check_step(sheet, step, due, after):
    """A step keeps the meaning and "every node before the place"; "No step raises the weight."
    Document 02: "no step raises any option's count"."""
    root = sheets.root_of(after)
    expect(meaning.meaning(root) == due, "a step changed the meaning")
    expect(weight(root) <= weight(sheets.root_of(sheet)), "a step raised the weight")
    expect(after[2:2 + step[1]] == sheet[2:2 + step[1]], "a step changed nodes before its place")
    counts = zip(counted(after)[::2], counted(sheet)[::2])
    expect(all(new <= old for new, old in counts), "a step raised an option's count")


def wrong_index(rng, sheet):
    """(its fault, an index): one number is another, or some are missing at its end."""
    index = counted(sheet)
    if rng.random() < 0.5:
        return SHORT, index[:rng.randrange(len(index))]
    at = rng.randrange(len(index))
    index[at] = (index[at] + rng.choice((1, 2, 65_534, 65_535))) % 65_536
    return STALE, index + rng.choice(([], PAST))


def due_with(fault, own):
    """The refusal due with a wrong index, by that due without one: 1 to 6 and 11 go before the 11
    of an index, all others after it; its 12 is last of all."""
    if fault == STALE:
        return own if 1 <= own <= 6 else 11
    return own or 12


def any_lines(rng, options):
    """(slots, their count), in order or not: document 02's list "starts with any lent lines"."""
    slots = [(rng.randrange(options + (rng.random() < 0.1)), rng.random() < 0.5)
             for _ in range(rng.choice((64,) * 12 + (0, 63, 65)))]
    return slots, rng.choice((0, 0, 0, 1, 2, 3, 63, 64, 65))


class List:
    """Demand 3: a random list of keyings, withdrawals, single steps and runs, with its account.
    `room` is the least, over all stretches that end here, of the steps that each may still do."""

    def __init__(self, rng, sheet, trees, met):
        self.rng, self.sheet, self.met = rng, sheet, met
        self.lines, count = any_lines(rng, sheet[0])
        self.count = [count]
        self.account = Account(trees, self.lines[:count])
        self.index = done(calls.index(sheet, [7] * (2 * sheet[0]) + PAST))[1]
        self.begin_stretch()

    def begin_stretch(self):
        self.room, self.due = cube(self.sheet), self.account.meaning()

    def made(self, what, call):
        """The answer of a call, given as a function of its index: without one, now and then with a
        wrong one, and with the one that is lent on."""
        own = call(None)
        refusal, value, (*left, _) = own
        self.met[what, refusal] += 1
        if self.rng.random() < 0.3:
            fault, index = wrong_index(self.rng, self.sheet)
            due = due_with(fault, refusal)
            given = call(index)
            expect(given[:2] == (due, 0), (what, "with a wrong index", fault, given[0], due))
            expect(given[2][0] == self.sheet and given[2][-1] == index, "refused, and changed")
            self.met[what, refusal, fault] += 1
        *given, (*left_too, self.index) = call(self.index)
        expect((*given, left_too) == (refusal, value, left), "a right index: not as without one")
        expect(self.index == counted(left[0]) + PAST, "an index lent on: no fresh count")
        return own

    def take(self, what, call):
        """What a keying or a withdrawal leaves; whether it is accepted."""
        before = self.sheet, self.lines, self.count
        refusal, _, (*after, _) = self.made(what, call)
        self.sheet, self.lines, self.count = after
        expect(refusal == 0 or tuple(after) == before, "a refused call changed something")
        return refusal == 0

    def stands(self):
        """After an accepted keying or withdrawal the lines below the count are those reckoned."""
        expect(self.lines[:self.count[0]] == self.account.standing, "other lines than reckoned")
        self.begin_stretch()

    def key(self):
        line = self.rng.randrange(self.sheet[0] + 1), self.rng.random() < 0.5
        order = self.sheet, self.lines, self.count
        if self.take("key", lambda index: calls.key(*order, index, *line)):
            self.account.key(line)
            self.stands()

    def withdraw(self):
        options, k = self.sheet[0], self.rng.randrange(self.count[0] + 1)
        trees = self.account.rules
        if self.rng.random() < 0.3:
            trees = [random_tree(self.rng, options, 2) for _ in range(self.rng.randint(0, 3))]
        book = build(CODES[:options], trees)
        order = self.sheet, book, self.lines, self.count
        if self.take("withdraw", lambda index: calls.withdraw(*order, index, k)):
            self.account.withdraw(k, trees)
            self.stands()

    def run(self):
        budget = self.rng.choice((0, 1, 2, 5, MOST))
        value, self.sheet, _ = done(
            self.made("run", lambda index: calls.run(self.sheet, index, budget)))
        count, settled = divmod(value, 2)
        expect(count == budget or settled and count < budget, "stopped with budget left")
        expect(meaning.meaning(sheets.root_of(self.sheet)) == self.due, "a run changed the meaning")
        self.count_steps(count)
        expect(not settled or is_settled(self.sheet, self.due), "settled, not as demand 3 says")

    def step(self):
        listed = rules.applicable(self.sheet)
        if listed:
            step = self.rng.choice(listed)
            _, after, _ = done(
                self.made("step", lambda index: calls.step(self.sheet, index, *step)))
            check_step(self.sheet, step, self.due, after)
            self.sheet = after
            self.met[step[0]] += 1
            self.count_steps(1)

    def complete(self):
        """With the loaded book, and now and then with another."""
        self.ask_complete(self.account.rules)
        if self.rng.random() < 0.2:
            self.ask_complete([random_tree(self.rng, self.sheet[0], 1)
                               for _ in range(self.rng.randint(0, 2))])

    def ask_complete(self, trees):
        """Document 02, U6: "not contradictory and every option that some rule of the loaded book or
        some choice names is marked 1 or 2": marks and choices as the account has them."""
        options, (count,) = self.sheet[0], self.count
        book = build(CODES[:options], trees)
        refusal, value, _ = calls.complete(self.sheet, book, self.lines, count)
        self.met["complete", refusal] += 1
        if refusal == 0:
            names = naming.Names(
                set(range(options)),
                None if self.due is None else {literal.option for literal in self.due},
                set().union(*(tree.options for tree in trees)),
                {option for option, _ in self.account.standing},
                {option for option in range(options) if counted(self.sheet)[2 * option]})
            expect(value == names.is_complete(), "complete: not as the account says")
            self.met.update(names.kinds())

    def count_steps(self, count):
        self.room -= count
        expect(self.room >= 0, "more steps than the cube")
        self.room = min(self.room, cube(self.sheet))


def check_list(rng, sheet, trees, met):
    made = List(rng, sheet, trees, met)
    for _ in range(rng.randint(1, 12)):
        rng.choice((made.key, made.withdraw, made.step, made.step, made.step, made.step,
                    made.run))()
        made.complete()
    expect(meaning.meaning(sheets.root_of(made.sheet)) == made.due, "a list changed the meaning")
    return made.sheet


def check_book(rng, met):
    options = rng.randint(1, 4)
    trees = [random_tree(rng, options, rng.randint(1, 4)) for _ in range(rng.randint(0, 4))]
    data, sheet = build(CODES[:options], trees), loaded(options, trees)
    due = meaning.meaning(Tree(ROOT, trees))
    value, last, _ = done(calls.run(sheet, counted(sheet), MOST))
    expect(value % 2 == 1 and value // 2 <= cube(sheet), "a run to the end: its count")
    expect(is_settled(last, due), "a run to the end: not settled as demand 3 says")
    listed = rules.applicable(sheet)
    for step in rng.sample(listed, min(5, len(listed))):
        check_step(sheet, step, due, done(calls.step(sheet, counted(sheet), *step))[1])
    # "A book loaded and written is the same bytes; a sheet written and loaded is the same sheet."
    expect(done(calls.write(sheet, data, [9] * len(data))) == (len(data), list(data)),
           "loaded and written: other bytes")
    last = check_list(rng, sheet, trees, met)
    length, written = done(calls.write(last, data, [9] * 9999))
    expect(done(calls.load(BLANK, written[:length]))[1] == last,
           "written and loaded: another sheet")
    return sheet


def check_listing(sheet):
    """The steps listed as applicable are those that are accepted, of all tried."""
    tried = [(rule, place, i, j) for rule in range(19) for place in range(sheet[1] + 1)
             for i in range(7) for j in range(5)]
    index = counted(sheet)
    accepted = [step for step in tried if calls.step(sheet, index, *step)[0] == 0]
    expect(accepted == rules.applicable(sheet), "other steps are accepted than are listed")
