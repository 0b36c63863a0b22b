"""Names of a setup that a reader may take for others: `warnings` says which, in a line each.

A letter that is not seen, or that turns round what follows it, has no place in a name; letters of two
alphabets in one word, and two names of the same look, are mostly a mistake, and sometimes none.
"""

import re
import unicodedata

# Letters of other alphabets that look like a Latin one.
LIKE = str.maketrans(
    "АВЕКМНОРСТУХІЈЅаеорсухіјѕһԁԛԝΑΒΕΖΗΙΚΜΝΟΡΤΥΧονυ01",
    "ABEKMHOPCTYXIJSaeopcyxijshdqwABEZHIKMNOPTYXovuol",
)
ALPHABETS = ("LATIN", "CYRILLIC", "GREEK", "ARMENIAN", "CHEROKEE", "COPTIC", "LISU")
# Letters and signs that are drawn as nothing: Hangul fillers, an empty Braille sign, a joiner.
BLANK = re.compile("[\u034f\u115f\u1160\u2800\u3164\uffa0]")


def unseen(text):
    """The characters of a text that are not seen, or turn round what follows: their codes."""
    return sorted({f"U+{ord(c):04X}" for c in text
                   if unicodedata.category(c) in ("Cc", "Cf", "Zl", "Zp") or BLANK.match(c)})


def mixed(text):
    """The words of a text that have letters of two alphabets."""
    def alphabets(word):
        names = {unicodedata.name(c, "").split(" ")[0] for c in word if c.isalpha()}
        return names & set(ALPHABETS)

    return [word for word in re.findall(r"\w+", text) if len(alphabets(word)) > 1]


def look(text):
    """A name as a reader sees it, without accents, capitals, points and spaces."""
    plain = unicodedata.normalize("NFKD", text).translate(LIKE).casefold()
    return "".join(c for c in plain if c.isalnum())


def names_of(setup):
    """The names of a setup, as setup.json has it, each with where it is; those to compare together."""
    yield [("the constituencies", con["name"]) for con in setup]
    for con in setup:
        yield [(f"the lists of {con['code']}", row["name"]) for row in con["lists"]]
        yield from ([(f"list {row['code']} of {con['code']}", name) for name in row["candidates"]]
                    for row in con["lists"])


def warnings(setup):
    """The oddities of the names, a line each, and each once."""
    found = {}
    for group in names_of(setup):
        seen = {}
        for place, name in group:
            shown = name.encode("ascii", "backslashreplace").decode()
            if codes := unseen(name):
                found[f"{place}: {shown} has {', '.join(codes)}, which no reader sees"] = None
            if words := mixed(name):
                word = words[0].encode("ascii", "backslashreplace").decode()
                found[f"{place}: {shown} has letters of two alphabets in {word}"] = None
            other = seen.setdefault(look(name), name)
            if other != name:
                other = other.encode("ascii", "backslashreplace").decode()
                found[f"{place}: {other} and {shown} look alike"] = None
    return list(found)
