"""Random marks and random at-leasts, for random books."""
from .trees import FALSE, NEGATIVE, POSITIVE, TRUE, Tree, at_least


def random_mark(rng, options):
    return mark_of(rng, rng.randrange(options))


def mark_of(rng, option):
    return Tree(rng.choice((POSITIVE, NEGATIVE)), option=option)


def random_at_least(rng, options):
    """Marks of distinct options in any order, constants among them now and then; k mostly such that
    it matters and stays, else 0, 1, all, or over the members."""
    count = rng.choice((options, rng.randint(0, options)))
    members = [mark_of(rng, option) for option in rng.sample(range(options), count)]
    for _ in range(rng.choice((0, 0, 0, 0, 1, 2))):
        members.insert(rng.randint(0, len(members)), rng.choice((TRUE, FALSE)))
    asked = rng.choice((rng.randint(0, len(members) + 1), rng.randint(1, max(1, len(members))),
                        rng.choice((0, len(members), 63))))
    if count > 2 and rng.random() < 0.6:
        asked = rng.randint(2, count - 1)
    return at_least(asked, *members)
