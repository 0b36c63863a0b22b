"""How a page is shown in a browser."""

import os
from pathlib import Path

from tests.support.scripts import in_page
from tests.support.site import same

# A folder in which pictures of the pages are left to look at, or nothing.
PICTURES = Path(os.environ["OFFICE_PICTURES"]) if "OFFICE_PICTURES" in os.environ else None
SHOWN_WRONG = in_page("shown_wrong.js")


def shows_well(it, name, whole=True):
    """A page is shown well on a phone and on a desk, light and dark; pictures of it are left where
    that was asked for."""
    papers = set()
    for width, height in ((320, 640), (360, 740), (1280, 900)):
        for dark in (False, True):
            it.size(width, height, dark)
            same((name, width, dark, it.run(SHOWN_WRONG)), (name, width, dark, []))
            papers.add(it.run("return getComputedStyle(document.body).backgroundColor"))
            if PICTURES and width > 320:
                PICTURES.mkdir(parents=True, exist_ok=True)
                it.picture(PICTURES / f"{name}-{width}-{'dark' if dark else 'light'}.png", whole)
    same(len(papers), 2)
