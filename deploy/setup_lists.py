"""The list that a row of candidates names, for `setup-from-tables`."""

from setup_tables import folded, identity, party_key


def list_of(maker, con, row):
    """The list that a row of candidates names: by code, by party, or by name."""
    text = row.table.value(row, "list")
    if not text:
        row.fault("missing", field=maker.column(row.table, "list"))
        return None
    found = lists_of(maker, con, row, text)
    if len(found) > 1:
        row.fault("which_list", value=text, con=con.made["code"])
    return found[0] if len(found) == 1 else None


def lists_of(maker, con, row, text):
    """The lists of a constituency that a text may name. None, with the fault, where it is a list of
    another constituency: one here that has the same letters, or is called so, is another party's."""
    party, made = party_key(text), maker.codes_made
    if found := [one for one in con.lists if one.made["code"] == text and one.party not in made]:
        note_other_list(maker, con, text, party, found[0])
        return called(found, found[0].party, row, text)
    if found := [one for one in con.lists if one.text == text]:
        return called(found, party, row, text)
    if found := [one for one in con.lists if one.party == party]:
        return called(found, party, row, text)
    other = maker.parties.get(party) or maker.owner.get(text.lower())
    if other and (other.party == party or other.made["code"] == text):
        at = {"file": other.row.table.file, "row": other.row.number}
        row.fault("list_elsewhere", value=text, con=con.made["code"], **at)
        return []
    letters = identity(text)
    if found := [one for one in con.lists if letters and identity(one.text) == letters]:
        maker.note_once("list_alike", value=text, other=found[0].text)
        return called(found, party, row, text)
    name = folded(text)
    if found := [
        one for one in con.lists if one.made["code"] == text or folded(one.made["name"]) == name
    ]:
        return called(found, found[0].party, row, text)
    row.fault("no_such_list", value=text, con=con.made["code"])
    return []


def called(found, party, row, text):
    """These lists, with a fault where rows call one by a party that is not its own and others do
    not: these may be two lists, of which one has no row."""
    one = found[0]
    first = one.called.setdefault(party, row) if len(found) == 1 else None
    if first is row and len(one.called) == 2:
        first = next(iter(one.called.values()))
        other = {"other": first.table.value(first, "list"), "row": first.number}
        row.fault("list_two_names", value=text, code=one.made["code"], **other)
    return found


def note_other_list(maker, con, text, party, one):
    """Notes a code of a list that is the party of another: the rows may mean that one."""
    here = [other for other in con.lists if other.party == party]
    other = here[0] if here else maker.parties.get(party)
    if other and other.party != one.party:
        names = {"name": one.made["name"], "other": other.made["name"]}
        maker.note_once("code_is_party", con=con.made["code"], value=text, **names)
