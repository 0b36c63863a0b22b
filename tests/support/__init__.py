"""The modules that suites share: nothing here is a test."""
