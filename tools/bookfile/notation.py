"""A whole text to a book."""
import difflib

from . import books, grammar, spelling, words
from .books import MOST_NODES, MOST_OPTIONS, MOST_RULES, MOST_WEIGHT
from .checking import in_thousands
from .words import NotationMistake, shown


def book_of(data):
    """The Book that the bytes of a text describe. An option may stand below a rule that names it."""
    statements = grammar.statements(words.cut(words.decoded(data)))
    numbers = options_of([each for each in statements if each.start.text == "option"])
    bodies = bodies_of([each for each in statements if each.start.text == "rule"], numbers)
    return books.Book(list(numbers), bodies)


def options_of(statements):
    """The options' numbers by their codes."""
    numbers, lines = {}, {}
    for statement in statements:
        word = grammar.option_code(statement)
        if word.text in numbers:
            raise NotationMistake(word, "the code %s is that of an option already, on line %d" % (shown(word.text), lines[word.text]))
        if len(numbers) == MOST_OPTIONS:
            raise NotationMistake(statement.start, "one option too many: a book has at most %d" % MOST_OPTIONS)
        numbers[word.text], lines[word.text] = len(numbers), word.line
    return numbers


def bodies_of(statements, numbers):
    """The nodes of each rule."""
    bodies, nodes, weight = [], 0, 1
    for statement in statements:
        formula = grammar.rule_formula(statement)
        check_known(formula, numbers)
        if len(bodies) == MOST_RULES:
            raise NotationMistake(statement.start, "one rule too many: a book has at most %s" % in_thousands(MOST_RULES))
        body = spelling.nodes_of(formula, numbers, statement.start)
        nodes, weight = nodes + len(body), weight + books.weight_of(body)
        if nodes > MOST_NODES:
            raise NotationMistake(statement.start, "with this rule the book has %s nodes; it has room for %s" % (
                in_thousands(nodes), in_thousands(MOST_NODES)))
        if weight > MOST_WEIGHT:
            raise NotationMistake(statement.start, "with this rule the book's weight (nodes and marks) is %s; %s is the most" % (
                in_thousands(weight), in_thousands(MOST_WEIGHT)))
        bodies.append(body)
    return bodies


def check_known(formula, numbers):
    for word in grammar.code_words(formula):
        if word.text not in numbers:
            near = difflib.get_close_matches(word.text, numbers, 1)
            raise NotationMistake(word, "no option has the code %s%s" % (
                shown(word.text), "; is %s meant?" % shown(near[0]) if near else ""))
