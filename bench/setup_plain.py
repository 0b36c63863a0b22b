#!/usr/bin/env python3
"""Reads the TOML text of a setup by Python's own `tomllib`: the measure for the speed of `read_setup`.

It takes the text on the standard input. By its argument, `read` parses it, and `print` also writes
what the setup holds.
"""

import sys
import tomllib


def constituency_lines(con, profiles):
    profile = profiles[con["profile"]]
    yield "\t".join([con["code"], con["name"], str(con["seats"]), con["profile"]])
    yield "\t".join([profile["method"], str(profile["threshold"]), profile["base"]])
    for entry in con["list"]:
        yield "\t".join([entry["code"], entry["name"], *entry["candidates"]])
    for station in con["station"]:
        yield f"{station['code']}\t{station['electors']}"


def main():
    setup = tomllib.loads(sys.stdin.buffer.read().decode())
    if sys.argv[1] == "read":
        print(len(setup["constituency"]))
        return
    profiles = {profile["code"]: profile for profile in setup["profile"]}
    for con in setup["constituency"]:
        for line in constituency_lines(con, profiles):
            print(line)


if __name__ == "__main__":
    main()
