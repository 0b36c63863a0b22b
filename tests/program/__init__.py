"""Tests of the program `office`, over databases in files and over TCP.

- Commands: test_command_line, test_new, test_import, test_show, test_check, test_allot, test_setup,
  test_recount_command, test_help.
  Files and disks: test_files, test_disk.
- The server: test_serve, test_messages, test_clients, test_waiting, test_bytes, test_examples.
- Databases that somebody changed: test_database, test_tables. The recount: test_recount.
- Large offices: test_large, test_large_constituency, test_limits, test_most_returns, test_size.
- What the documents show: test_readme.

At the end of each test every database that it leaves is counted again. Some tests need a C
compiler, as `cc`.
"""
