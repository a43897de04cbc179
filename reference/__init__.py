"""A second implementation of the protocol, written only from docs/PROTOCOL.md, by somebody who had
seen no code or definition of this repository.

    python3 -m reference replay < schedules/theft.schedule
    python3 -m reference generate 2000 7

It aims at being obviously right, and not at speed: Python's standard library, one module for each
chapter, and each function names its chapter. A rule is changed here from the words of the book, and
from nothing else. `.ci/reference` tries it, and `tools/compare` gives it and the program random
schedules.
"""
