"""The seventeen rules, single steps, the house step and runs."""
from . import Refused, mentions
from .sheets import fill, read
from .trees import (AT_LEAST, CONJUNCTION, DISJUNCTION, FALSE, ROOT, TRUE, Tree, at_least,
                    conjunction, disjunction, fold, numbers, preorder)

# "Node kind and fewest children of each rule stand as one fixed table of 14 rows"; document 02:
# "House order and 01's table go on to 17".
TABLE = {1: (CONJUNCTION, 2), 2: (DISJUNCTION, 2), 3: (ROOT, 2),
         4: (CONJUNCTION, 1), 5: (DISJUNCTION, 1), 6: (ROOT, 1),
         7: (CONJUNCTION, 1), 8: (DISJUNCTION, 1), 9: (DISJUNCTION, 2), 10: (ROOT, 2),
         11: (CONJUNCTION, 1), 12: (ROOT, 1), 13: (CONJUNCTION, 1), 14: (DISJUNCTION, 2),
         15: (AT_LEAST, 1), 16: (AT_LEAST, 0), 17: (AT_LEAST, 0)}


def contractum(rule, node, i, j):
    """What `node` becomes by this rule, child i and inner child j; None where it is no redex.
    "An index that a rule has no use for must be 0." """
    kind, fewest = TABLE[rule]
    k = len(node.children)
    if node.kind != kind or k < fewest:
        return None
    if rule in (16, 17):  # these have no use for a child, and there may be none
        return ended(rule, node) if i == j == 0 else None
    if not 0 <= i < k:
        return None
    child = node.children[i]
    if rule in (11, 12):
        return lifted(node, i, j)
    if rule == 14:
        return factored(node, i, j)
    if j != 0:
        return None
    if rule in (1, 2, 3):  # "k >= 2, child i false [2: true]: only that child stays."
        found = child.is_true() if rule == 2 else child.is_false()
        return Tree(kind, (child,)) if found else None
    if rule in (4, 5, 6):  # "child i true [5: false]: the child goes."
        found = child.is_false() if rule == 5 else child.is_true()
        return replaced(node, i) if found else None
    if rule in (7, 8):  # "k = 1: the child replaces it." (i has no use; in range, it is 0)
        return child if k == 1 else None
    if rule == 9:  # "in the others the same mark becomes false, its opposite true"
        return propagated(node, i, FALSE, TRUE)
    if rule == 10:  # "likewise, but the same mark becomes true, its opposite false"
        return propagated(node, i, TRUE, FALSE)
    if rule == 15:
        return without_constant(node, i)
    # 13. "All-of, child i an all-of, all other children marks: child i's children replace it."
    found = child.kind == CONJUNCTION and all(other.literal for other in others(node, i))
    return replaced(node, i, *child.children) if found else None


def others(node, i):
    return node.children[:i] + node.children[i + 1:]


def replaced(node, i, *new):
    """The node with `new` in the place of child i. "All other order is kept." """
    return node.with_children(node.children[:i] + new + node.children[i + 1:])


def propagated(node, i, same, opposite):
    """Rules 9 and 10: "child i a mark whose option occurs in another child"."""
    literal = node.children[i].literal
    if not literal or not any(literal.option in other.options for other in others(node, i)):
        return None

    def substituted(old, new_children):
        if old.literal:
            return (same if old.literal == literal else
                    opposite if old.literal == literal.opposite() else old)
        return old.with_children(new_children)
    return node.with_children(child if at == i else fold(child, substituted)
                              for at, child in enumerate(node.children))


def lifted(node, i, j):
    """Rules 11 and 12: "child i an all-of whose child j is a mark: that mark moves to just before
    child i." """
    child = node.children[i]
    if child.kind != CONJUNCTION or not 0 <= j < len(child.children):
        return None
    mark = child.children[j]
    return replaced(node, i, mark, replaced(child, j)) if mark.literal else None


def factored(node, i, j):
    """14. "Any-of, every child a mark or an all-of having mark a among its children, at least two
    all-ofs; i is the first all-of, j the index of the first a in it. Result: the marks, then
    all-of(a, any-of(the all-ofs, each without its first a))." """
    marks = [child for child in node.children if child.literal]
    all_ofs = [child for child in node.children if child.kind == CONJUNCTION]
    if len(marks) + len(all_ofs) != len(node.children) or len(all_ofs) < 2:
        return None
    if i != node.children.index(all_ofs[0]) or not 0 <= j < len(all_ofs[0].children):
        return None
    a = all_ofs[0].children[j]
    inner = [[child.literal for child in all_of.children] for all_of in all_ofs]
    if (not a.literal or not all(a.literal in literals for literals in inner)
            or j != inner[0].index(a.literal)):
        return None
    rests = [replaced(all_of, literals.index(a.literal))
             for all_of, literals in zip(all_ofs, inner)]
    return disjunction(*marks, conjunction(a, disjunction(*rests)))


def without_constant(node, i):
    """15. "removes member i that is true (k less one, not below 0) or false" """
    member = node.children[i]
    if not member.is_true() and not member.is_false():
        return None
    asked = max(0, node.asked - 1) if member.is_true() else node.asked
    return at_least(asked, *others(node, i))


def ended(rule, node):
    """16. "turns k = 0 into true and k over the members into false". 17. "turns k = 1 into any-of,
    else k = members into all-of"."""
    members = len(node.children)
    if rule == 16:
        return TRUE if node.asked == 0 else FALSE if node.asked > members else None
    if node.asked == 1:
        return disjunction(*node.children)
    return conjunction(*node.children) if node.asked == members else None


def indices(node):
    """Each i with each j that can name something below a node; 0 and 0 where nothing is below."""
    if not node.children:
        yield 0, 0
    for i, child in enumerate(node.children):
        for j in range(max(1, len(child.children))):
            yield i, j


def redexes(root):
    """Every applicable (rule, place, i, j), lowest first."""
    nodes = preorder(root)
    for rule, (kind, fewest) in TABLE.items():
        for place, node in enumerate(nodes):
            if node.kind == kind and len(node.children) >= fewest:
                for i, j in indices(node):
                    if contractum(rule, node, i, j) is not None:
                        yield rule, place, i, j


def applicable(sheet):
    """ "A rule applies when its conditions hold at some place, i and j." """
    return list(redexes(read(sheet)[1]))


def house_step(sheet):
    """ "The house step is the applicable one with lowest rule, then place, i, j." Or None."""
    return next(redexes(read(sheet)[1]), None)


def rewritten(root, rule, place, i, j):
    """The node numbers after a step of this rule; None where it does not apply. "A rule rewrites
    the stretch of the sheet from its place onward ... and every node before the place stays." """
    nodes = preorder(root)
    new = contractum(rule, nodes[place], i, j) if 0 <= place < len(nodes) else None
    if new is None:
        return None
    old, after = numbers(root), place + len(preorder(nodes[place]))
    return old[:place] + numbers(new) + old[after:]


def apply(sheet, rule, place, i, j, index=None):
    """The sheet after. Document 02: "refusal 9 is for rules outside 1 to 17"; document 01: "10 the
    step does not apply"; last 12."""
    options, root = read(sheet)
    mentions.check(options, root, index)
    if rule not in TABLE:
        raise Refused(9)
    after = rewritten(root, rule, place, i, j)
    if after is None:
        raise Refused(10)
    mentions.check_length(options, index)
    return fill(options, after)


def run(sheet, budget, index=None):
    """(count, settled, sheet after). "It says settled when no rule applies; it says stopped when
    the budget's steps are done and a rule still applies." """
    options, root = read(sheet)
    mentions.check(options, root, index)
    mentions.check_length(options, index)
    count, step = 0, house_step(sheet)
    while step is not None and count < budget:
        sheet, count = apply(sheet, *step), count + 1
        step = house_step(sheet)
    return count, step is None, sheet
