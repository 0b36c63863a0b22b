"""The parts of a line of the record of commands, and how a text is written into one."""

import base64
import contextlib
import hashlib
import json
import re


def setup_of(line):
    """The hash of the setup with which a record begins, or an empty text."""
    with contextlib.suppress(ValueError, AttributeError, RecursionError):
        return json.loads(line).get("setup", "")
    return ""


def command_of(entry):
    """A command as a history shows it. Of a file it shows no rows: they are other stations' too."""
    _, kind, _, act = entry["path"].split("/", 3)
    shown = {key: entry[key] for key in ("n", "time", "name", "role")}
    shown |= {"act": act.split("/")[0], "status": entry.get("status")}
    body = text_of(entry, "body") if kind == "station" else None
    return shown if body is None else shown | {"body": body}


def before_texts(line):
    """A line as JSON without what was sent or answered, and what comes after it."""
    parts = re.split(rb', "(?:body|answer)', line, maxsplit=1)
    return parts[0] + b"}" if len(parts) > 1 else line


def text_of(entry, name):
    """A text of a line, also where base64 has it; None where it is no text, or is not there."""
    with contextlib.suppress(UnicodeDecodeError):
        if f"{name}_base64" in entry:
            return base64.b64decode(entry[f"{name}_base64"]).decode()
    return entry.get(name)


def hash_of(line):
    return hashlib.sha256(line).hexdigest()


def text_or_bytes(name, data):
    """A text as it is; what is no text, or what a terminal may obey, in base64.

    A character that is not printable may turn round what a terminal shows, or be written by JSON as six."""
    try:
        text = data.decode()
    except UnicodeDecodeError:
        text = None
    if text is None or not all(part.isprintable() for part in re.split("[\t\r\n]+", text)):
        return {f"{name}_base64": base64.b64encode(data).decode()}
    return {name: text}
