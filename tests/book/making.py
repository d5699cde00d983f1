"""Random accepted books: codes that look like words of the notation, groups without and with one part, marks twice over; at-leasts
of no members and of 63, which ask for none, for some, and for more than there are."""
from bookfile.books import ALL_OF, ANY_OF, FALSE, MARKS, MOST_MEMBERS, TRUE, Book, at_least, node, weight_of

WORDS = ["all", "any", "not", "true", "false", "option", "rule", "-", "--", "A-1", "A-", "-A", "0", "ALL", "Not", "all-", "-not",
         "ABCDEFGHIJKLM", "ABCDEFGHIJKLN", "one-of", "rule-", "p", "P", "exactly", "at-least", "2", "63", "64"]
CHARACTERS = "ABCXYZabcxyz0189-"
HEAVIEST = 400  # most books; a few are made as heavy as can be


def random_codes(rng):
    count = rng.choice((0, 1, 2, 3, 5, 9, 30))
    found = rng.sample(WORDS, min(count, rng.randint(0, len(WORDS))))
    while len(found) < count:
        code = "".join(rng.choice(CHARACTERS) for _ in range(rng.randint(1, 13)))
        if code not in found:
            found.append(code)
    return found


def random_body(rng, options, room):
    """At most `room` of weight: while children are due, a mark or a group is put, and at the end the dearest things no more."""
    found, due = [], 1
    while due > 0:
        left = room - due  # every child that is due takes at least 1
        if options and left > 1 and rng.random() < 0.55:
            found.append(node(rng.choice(MARKS), rng.randrange(options)))
            room, due = room - 2, due - 1
        elif rng.random() < 0.2:
            whole = random_at_least(rng, options, max(left, 0))
            found += whole
            room, due = room - weight_of(whole), due - 1
        else:
            count = min(rng.choice((0, 1, 1, 2, 2, 3, 4)), max(left, 0))
            found.append(node(rng.choice((ALL_OF, ANY_OF)), count))
            room, due = room - 1, due - 1 + count
    return found


def random_at_least(rng, options, room):
    """An at-least with its members, which take at most `room` of weight."""
    count = min(rng.choice((0, 1, 2, 3, 4, 9, MOST_MEMBERS)), room // 2)
    named = rng.sample(range(options), min(options, rng.randint(0, count)))
    members = [node(rng.choice(MARKS), option) for option in named]
    members += [rng.choice((TRUE, FALSE)) for _ in range(count - len(named))]
    rng.shuffle(members)
    asked = rng.choice((0, 1, 2, count // 2, count, min(count + 1, MOST_MEMBERS), MOST_MEMBERS))
    return [at_least(asked, count)] + members


def random_book(rng):
    codes = random_codes(rng)
    bodies, room = [], 4095 if rng.random() < 0.002 else HEAVIEST
    for _ in range(rng.choice((0, 1, 2, 3, 6, 12))):
        body = random_body(rng, len(codes), min(room, rng.choice((1, 2, 3, 10, 40, 4095))))
        room -= weight_of(body)
        bodies.append(body)
        if room < 1:
            break
    return Book(codes, bodies)
