"""Tests of the launcher `office`, in copies of this repository with a stub in the place of `rt`.

How tests/run.py runs suites: test_suites.
"""
