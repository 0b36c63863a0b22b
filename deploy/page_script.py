"""The script of the press pages, as each of them has it: without its comments, and without the
spaces in front of its lines. By its hash the policies of the pages and of the proxy name it."""

import base64
import hashlib
import re

LEFT_OUT = re.compile(r"^ *//.*\n|^ +", re.M)


def script_of(source):
    return "\n" + LEFT_OUT.sub("", source)


def hash_of(script):
    return base64.b64encode(hashlib.sha256(script.encode()).digest()).decode()
