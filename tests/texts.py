#!/usr/bin/env -S python3 -B
"""Compares the texts of the repository with each other, with the sources and with the program: the files that documents
name, the clauses that they claim, the glossary, the names of DEFINITIONS, the table of messages, the help texts, the
pictures, the version, the identity, the licences of others, the figures of the first page, the files for forges, the wrong
bodies, as texts, and the clauses that have none; also what `-k` does. Each module of tests/support/texts says what it looks
for. Last line: `N passed, M failed`."""

from support.check import Check
from support.texts import (chosen, claims, clauses, definitions, first_page, forges, help, identity, licences, links, messages, pictures, versions,
                           wrong_bodies)


def main():
    check = Check()
    for part in (links, claims, definitions, messages, help, pictures, versions, identity, wrong_bodies, clauses, licences, first_page, forges, chosen):
        part.rows(check)
    check.end()


main()
