"""Option books as an engineer keeps them: a text in a small notation, the book file of documents 01 and 02, and the way between both.

books: the book file's limits and bytes. checking: the refusals 1 to 6, in words. words: a text cut into words. grammar: words to
formulas. spelling: formulas to nodes. notation: a whole text to a book. showing: a book to a text. comparing: two books. drawing: a
book as a picture. clause_text: where a text is no clause file. importing: a clause file to a book, by the proved call. kinds: what a file
is, by its bytes. saying: standard output and standard error. files: reading, and writing by which nothing is lost. commands: the verbs of
tools/book.

A nest may be as deep as a book has nodes, so nothing in here recurses.
"""


class Mistake(Exception):
    """What an engineer has to put right, in one line of words that says where it stands."""
