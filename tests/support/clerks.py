"""The clerks' page in a browser, and those who use it."""

import contextlib
import json

from tests.support import browser
from tests.support.office import LISTS, PROFILE, constituency, party_list, station
from tests.support.pages import press
from tests.support.proxy import office_and_proxy, with_a_second
from tests.support.scripts import in_page
from tests.support.site import NAME, plain, same, serving


@contextlib.contextmanager
def clerks_browser(front, name, words="This is what the office has now."):
    """A browser of somebody who gave name and password, with the clerks' page, once it says
    this."""
    with browser.tab() as it:
        # A driver cannot answer the question for name and password: the browser sends them as it
        # does once they were given.
        it.command("Network.enable")
        it.command("Network.setExtraHTTPHeaders",
                   headers={"Authorization": front.authorization(name)})
        it.open(f"https://{NAME}:{front.port}/clerk.html")
        said(it, words)
        yield it


def said(it, words):
    """Waits until the page says this, and is ready for more."""
    try:
        it.wait("return document.getElementById('said').textContent.includes(arguments[0]) && "
                "!document.getElementById('again').disabled", words)
    except browser.Failed as error:
        raise AssertionError(f"wanted {words!r}, and it says {it.text('#said')!r}") from error


def compare(it, words):
    """Waits until the page says of a slip that it differs, and stops; goes on to compare it."""
    said(it, words)
    same(it.run("return document.activeElement.id"), "stopped-compare")
    it.click("#stopped-compare")


def choose_station(it, code, words="This is what the office has now."):
    it.run("const e = document.getElementById('station'); e.value = arguments[0]; "
           "e.dispatchEvent(new Event('change'))", code)
    said(it, words)


def choose_con(it, code):
    it.run("const e = document.getElementById('con'); e.value = arguments[0]; e.dispatchEvent(new "
           "Event('change'))", code)
    said(it, "This is what the office has now.")


def type_slip(it, form, lodged):
    """Types a return into a form, with its total."""
    numbers = [*lodged["votes"], lodged["blank"], lodged["spoiled"]]
    it.type(f"#{form} input[name=slip]", lodged["slip"])
    for place, number in enumerate([*numbers, lodged.get("total", sum(numbers))], 1):
        it.type(f"#{form} .counts > :nth-child({place}) input", str(number))


def enter(it, form, lodged):
    """Types a return into a form and sends it; of what is unusual in it the paper says so."""
    type_slip(it, form, lodged)
    it.click(f"#{form} button")
    if it.run("const all = document.querySelectorAll(`#${arguments[0]} .warning input`); "
              "all.forEach((e) => e.click()); return all.length", form):
        it.click(f"#{form} button")


def confirmed(it, button, question, words):
    """Presses a button that asks back."""
    it.click(button)
    same(it.accept(), question)
    said(it, words)


# Two constituencies that take two entries, and one that takes one.
TWICE = (PROFILE + constituency("c1", "Twin Town", 3, "d0") + 'entry = "double"\n' + LISTS
         + "".join(station(f"s{n}", 300) for n in range(1, 7)) + constituency("c2", "Port", 2, "d0")
         + 'entry = "double"\n' + party_list("B", "Beta", "Bea") + party_list("C", "Gamma", "Gil")
         + party_list("D", "Delta", "Dina") + station("t1", 200)
         + constituency("c3", "Once", 1, "d0") + LISTS + station("u1", 300))
SLIP = {"slip": "p1", "votes": [120, 71], "blank": 2, "spoiled": 1}


def post(desk, target, body, status=200):
    found = plain(desk.port, "POST", target, json.dumps(body))
    assert found.status == status, f"{target} {body}: {found}"
    return json.loads(found.body)


def shown(desk, code):
    return json.loads(plain(desk.port, "GET", f"/station/{code}").body)


@contextlib.contextmanager
def office_with_pages(setup):
    """The office, the proxy, and the press pages, among them the page's file of the setup."""
    with office_and_proxy(setup) as (desk, front):
        press(desk.port, "--setup", "setup.toml", folder=str(front.folder / "pages"))
        yield desk, front


@contextlib.contextmanager
def claras_page(setup):
    """The office with its pages, and the clerks' page in Clara's browser."""
    with office_with_pages(setup) as (desk, front), clerks_browser(front, "clara") as it:
        yield desk, front, it


@contextlib.contextmanager
def office_with_a_second(setup):
    """The office, the proxy with sara, who enters slips a second time, and the page's file of the
    setup."""
    with serving(setup) as desk:
        with with_a_second(desk.port) as front:
            press(desk.port, "--setup", "setup.toml", folder=str(front.folder / "pages"))
            yield desk, front


def forms(it):
    """The forms that are shown, in their order."""
    return it.run("return [...document.forms].filter((form) => "
                  "form.getClientRects().length).map((form) => form.id)")


def focused(it):
    """The name of the field that has the focus, and its label."""
    return it.run("const e = document.activeElement; return [e.name || e.id, (e.labels && "
                  "e.labels[0] || e).textContent.trim()]")


TWICE_OR_IDLE = in_page("twice_or_idle.js")


def unspoken(it):
    """The faults for a screen reader.

    These are: a part that acts and has no name, two forms of one name, an id that is there twice,
    and a tab stop that does not act.
    """
    named = it.named("button", "checkbox", "combobox", "DisclosureTriangle", "form", "link",
                     "region", "textbox")
    names = [name for role, name in named if role == "form"]
    return [one for one in named if not one[1]] + [name for name in set(names)
                                                   if names.count(name) > 1] + it.run(TWICE_OR_IDLE)


def receipt(it):
    """The text of the receipt, by the heads of its rows."""
    return dict(it.run("return [...document.querySelectorAll('#receipt tr')].map((row) => "
                       "[...row.children].map((e) => e.textContent))"))


def choose_station_again(it, code, words="This is what the office has now."):
    """Goes to another station, where something is typed that was not sent: it may go."""
    it.run("const e = document.getElementById('station'); e.value = arguments[0]; setTimeout(() => "
           "e.dispatchEvent(new Event('change')))", code)
    it.accept()
    said(it, words)
