"""Setups and what the office answers to them, for the tests of the program and of the tools that
read a setup.

Tables have a line for each case, with what it comes to after ` => `: `read`, or the word of the
refusal and, after ` / `, where the fault is. A line of four spaces in front goes on with the line
before it."""

from tests.support.office import CONSTITUENCY, LISTS, PROFILE, station
from tests.support.program import lines_of


STATION = station("s1")


EXAMPLE = PROFILE + CONSTITUENCY + LISTS + STATION


# Edits of the example, each of the first place that has the text. ` / ` is the end of a line.
EDITS = r"""
code = "d0" =>  => missing code / at profile 1
code = "d0" => code = 7 => bad_value code / at profile 1
code = "d0" => code = "" => bad_value code / at profile 1
code = "d0" => code = "12345678901234567" => bad_value code / at profile 1
code = "d0" => code = "d 0" => bad_value code / at profile 1
method = "dhondt" =>  => missing method / at profile 1 d0
"dhondt" => "DHondt" => bad_value method / at profile 1 d0
"dhondt" => 1979-05-27 => bad_value method / at profile 1 d0
"dhondt" => "sainte-lague" => read
"dhondt" => "modified-sainte-lague" => read
"dhondt" => "hare" => read
threshold = 0 =>  => missing threshold / at profile 1 d0
threshold = 0 => threshold = 10000 => read
threshold = 0 => threshold = 10001 => bad_value threshold / at profile 1 d0
threshold = 0 => threshold = -1 => bad_value threshold / at profile 1 d0
threshold = 0 => threshold = 0.0 => bad_value threshold / at profile 1 d0
base = "valid" =>  => missing base / at profile 1 d0
"valid" => "lists" => read
"valid" => "votes" => bad_value base / at profile 1 d0
base = "valid" => base = "valid" / lot = "fixed" => read
base = "valid" => base = "valid" / lot = "alternating" => read
base = "valid" => base = "valid" / lot = "coin" => bad_value lot / at profile 1 d0
code = "c1" =>  => missing code / at constituency 1
name = "Twin Town" =>  => missing name / at constituency 1 c1
"Twin Town" => ["Twin Town"] => bad_value name / at constituency 1 c1
"Twin Town" => "" => bad_value name / at constituency 1 c1
"Twin Town" => "Twin\tTown" => bad_value name / at constituency 1 c1
"Twin Town" => "12345678901234567890123456789012345678901234567890123456789012345678901234567890"
    => read
"Twin Town" => "123456789012345678901234567890123456789012345678901234567890123456789012345678901"
    => bad_value name / at constituency 1 c1
seats = 3 =>  => missing seats / at constituency 1 c1
seats = 3 => seats = 0 => bad_value seats / at constituency 1 c1
seats = 3 => seats = 500 => read
seats = 3 => seats = 501 => bad_value seats / at constituency 1 c1
seats = 3 => seats = 4294967299 => bad_value seats / at constituency 1 c1
seats = 3 => seats = "3" => bad_value seats / at constituency 1 c1
profile = "d0" =>  => missing profile / at constituency 1 c1
profile = "d0" => profile = "zz" => unknown_profile / at constituency 1 c1
profile = "d0" => profile = "z z" => bad_value profile / at constituency 1 c1
profile = "d0" => profile = "d0" / entry = "single" => read
profile = "d0" => profile = "d0" / entry = "double" => read
profile = "d0" => profile = "d0" / entry = "twice" => bad_value entry / at constituency 1 c1
profile = "d0" => profile = "d0" / entry = "Double" => bad_value entry / at constituency 1 c1
profile = "d0" => profile = "d0" / entry = 2 => bad_value entry / at constituency 1 c1
profile = "d0" => profile = "d0" / size = "normal" => read
profile = "d0" => profile = "d0" / size = "large" => read
profile = "d0" => profile = "d0" / size = "huge" => bad_value size / at constituency 1 c1
profile = "d0" => profile = "d0" / size = "Large" => bad_value size / at constituency 1 c1
profile = "d0" => profile = "d0" / size = 1 => bad_value size / at constituency 1 c1
profile = "d0" => profile = "d0" / entry = "twice" / size = "huge" =>
    bad_value entry / at constituency 1 c1
profile = "d0" => profile = "d0" / x_board = "y" => read
base = "valid" => base = "valid" / x_board = "y" => read
code = "A" => code = "A" / x_board = "y" => read
code = "A" =>  => missing code / at constituency 1 c1, list 1
code = "A" => code = "B" =>
    duplicate B / at constituency 1 c1, list 2; first at constituency 1 c1, list 1 B
name = "Alpha" =>  => missing name / at constituency 1 c1, list 1 A
candidates = ["Bea"] =>  => missing candidates / at constituency 1 c1, list 2 B
["Bea"] => [] => missing candidates / at constituency 1 c1, list 2 B
["Bea"] => [1] => bad_value candidates / at constituency 1 c1, list 2 B
["Bea"] => "Bea" => bad_value candidates / at constituency 1 c1, list 2 B
["Bea"] => ["Bea", ""] => bad_value candidates / at constituency 1 c1, list 2 B, candidate 2
code = "s1" =>  => missing code / at constituency 1 c1, station 1
code = "s1" => code = "s1" / electors = 300 / [[constituency.station]] / code = "s1" =>
    duplicate s1 / at constituency 1 c1, station 2; first at constituency 1 c1, station 1 s1
electors = 300 =>  => missing electors / at constituency 1 c1, station 1 s1
electors = 300 => electors = 0 => bad_value electors / at constituency 1 c1, station 1 s1
electors = 300 => electors = 1000000 => read
electors = 300 => electors = 1000001 => bad_value electors / at constituency 1 c1, station 1 s1
electors = 300 => electors = 300 / agents = 0 => read
electors = 300 => electors = 300 / agents = 1000 => read
electors = 300 => electors = 300 / agents = 1001 =>
    bad_value agents / at constituency 1 c1, station 1 s1
electors = 300 => electors = 300 / agents = -1 =>
    bad_value agents / at constituency 1 c1, station 1 s1
electors = 300 => electors = 300 / agents = 2.0 =>
    bad_value agents / at constituency 1 c1, station 1 s1
electors = 300 => electors = 999999 / agents = 1 => read
electors = 300 => electors = 999999 / agents = 2 =>
    bad_value agents / at constituency 1 c1, station 1 s1
electors = 300 => electors = 1000000 / agents = 0 => read
electors = 300 => electors = 1000000 / agents = 1 =>
    bad_value agents / at constituency 1 c1, station 1 s1
electors = 300 => electors = 0 / agents = -1 =>
    bad_value electors / at constituency 1 c1, station 1 s1
electors = 300 => electors = 300 / x_board = "y" => read
[[profile]] => [[ => not_toml / at line 1, column 3
"""


# The texts in quotes as the code of a constituency: of up to 16 characters, and beside those that a
# code may have their neighbours.
CODES = r"""
A => read
ABCDEFGHIJKLMNOP => read
ABCDEFGHIJKLMNOPQ => bad_value code / at constituency 1
azAZ09-_ => read
- => read
_ => read
@ => bad_value code / at constituency 1
[ => bad_value code / at constituency 1
` => bad_value code / at constituency 1
{ => bad_value code / at constituency 1
/ => bad_value code / at constituency 1
: => bad_value code / at constituency 1
, => bad_value code / at constituency 1
. => bad_value code / at constituency 1
^ => bad_value code / at constituency 1
  => bad_value code / at constituency 1
a b => bad_value code / at constituency 1
a  => bad_value code / at constituency 1
a\u0000 => bad_value code / at constituency 1
ä => bad_value code / at constituency 1
"""


# Whole texts.
TEXTS = """
 => missing profile
profile = [] => missing profile
profile = 3 => bad_value profile
profile = [1] => bad_value profile
[profile] => bad_value profile
profile = [{}] => missing code / at profile 1
profile = [{code = "a", method = 1, threshold = -1, base = 1}] => bad_value method / at profile 1 a
profile = [{code = "a", method = "hare", threshold = -1, base = 1}] =>
    bad_value threshold / at profile 1 a
profile = [{code = "a", method = "hare", threshold = 0, base = "lists"}, {code = "a"}] =>
    duplicate a / at profile 2; first at profile 1 a
profile = [{code = "a", method = "hare", threshold = 0, base = 1, lot = "coin"}] =>
    bad_value base / at profile 1 a
profile = [{code = "a", method = "hare", threshold = 0, base = "lists", lot = "Fixed"}] =>
    bad_value lot / at profile 1 a
profile = [{code = "a", method = "hare", threshold = 0, base = "lists", lot = true}] =>
    bad_value lot / at profile 1 a
profile = [{code = "a", method = "hare", threshold = 0, base = "lists", lot = "fixed"}] =>
    missing constituency
profile = [{code = "a", method = "hare", threshold = 0, base = "lists", entry = "twice"}] =>
    missing constituency
[[ => not_toml / at line 1, column 3
constituency = [] => missing profile
"""


# Texts that follow a good profile.
GOOD_PROFILE = 'profile = [{code = "p", method = "hare", threshold = 0, base = "lists"}]\n'


CONSTITUENCIES = """
 => missing constituency
[constituency] => bad_value constituency
[[constituency]] => missing code / at constituency 1
constituency = [{code = "c", name = 1, seats = 0, profile = "zz"}] =>
    bad_value name / at constituency 1 c
constituency = [{code = "c", name = "C", seats = 0, profile = "zz"}] =>
    bad_value seats / at constituency 1 c
constituency = [{code = "c", name = "C", seats = 1, profile = "zz", list = 1}] =>
    unknown_profile / at constituency 1 c
constituency = [{code = "c", name = "C", seats = 1, profile = "zz", entry = 2}] =>
    unknown_profile / at constituency 1 c
constituency = [{code = "c", name = "C", seats = 1, profile = "p", entry = [], list = 1}] =>
    bad_value entry / at constituency 1 c
constituency = [{code = "c", name = "C", seats = 1, profile = "p", entry = "double", list = 1}] =>
    bad_value list / at constituency 1 c
constituency = [{code = "c", name = "C", seats = 1, profile = "p", size = "huge", list = 1}] =>
    bad_value size / at constituency 1 c
constituency = [{code = "c", name = "C", seats = 1, profile = "p", size = "large", list = 1}] =>
    bad_value list / at constituency 1 c
constituency = [{code = "c", name = "C", seats = 1, profile = "p", station = 1}] =>
    missing list / at constituency 1 c
constituency = [{code = "c", name = "C", seats = 1, profile = "p", list = [{code = "A", name = "A",
    candidates = ["A"]}]}] => missing station / at constituency 1 c
constituency = [{code = "c", name = "C", seats = 1, profile = "p", list = [{code = "A", name = "A",
    candidates = ["A"]}, {code = "A"}], station = 1}] => duplicate A / at constituency 1 c, list 2;
    first at constituency 1 c, list 1 A
constituency = [{code = "c", name = "C", seats = 1, profile = "p", list = [{code = "A", name = "A",
    candidates = ["A"]}], station = [{code = "s", electors = 1}, {code = "s"}]}] => duplicate s /
    at constituency 1 c, station 2; first at constituency 1 c, station 1 s
constituency = [{code = "c", name = "C", seats = 1, profile = "p", list = [{code = "A", name = "A",
    candidates = ["A"]}], station = [{code = "s", electors = 1}]}, {code = "c"}] => duplicate c /
    at constituency 2; first at constituency 1 c
constituency = [{code = "c", name = "C", seats = 1, profile = "p", list = [{code = "A", name = "A",
    candidates = ["A"]}], station = [{code = "s", electors = 1}]}, {code = "d", name = "D", seats =
    1, profile = "p", list = [{code = "A", name = "A", candidates = ["A"]}], station = [{code =
    "s"}]}] => duplicate s / at constituency 2 d, station 1; first at constituency 1 c, station 1 s
constituency = [{code = "c", name = "C", seats = 1, profile = "p", list = [{code = "A", name = "A",
    candidates = ["A"]}], station = [{code = "s", electors = 1}], more = 1}] => read
"""


def cases_of(table):
    """The cases of a table, each with what it comes to."""
    return [line.rsplit(" => ", 1) for line in lines_of(table)]
