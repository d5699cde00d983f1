"""The library as its users have it: the Python module, and the examples in C and in Python.

module: every call and refusal by python/nibdrumlin.py, reports beside the checker's. refusing: the
refused calls. lending: the memory that is lent. doors: arguments of other types. threads: orders
that threads share. processes: copies and pickles. orders: the examples beside the desk program.
examples: those that take words, changes: the one that takes lines back, mentions: the one that
tells how often each option is named, reserved: the one that asks whether an order is complete,
imports: the one that makes a book of a clause file. slots.c: slots past the count of lines.
stack.c: the stack that each call needs. All of it: tests/library/run
"""
