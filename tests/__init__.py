"""Tests from outside: of the program, of the launcher, of `deploy/`, and of the documents.

    ./test NAME..
    OFFICE_PROGRAM=FILE python3 -m unittest tests.program.test_import -k killed

Each folder has suites of one subject, of at most 700 lines. What suites share is in
tests/support, which has no tests: the base class of tests in case.py, running the program in
program.py, its server in desk.py, an office in plain Python in model.py. run.py runs suites side by
side.
"""
