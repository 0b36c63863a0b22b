"""The places of a site that the package sets up, of which a computer may have several.

The files of deploy/ name the places of one office that was installed by hand. The package has its
programs in /usr, and each site has folders, units and ports of its own."""

import re

from site_machine import Fault

# The ports of a site: the desk has one of these, and the reader the one that is so much higher.
DESKS, READER = range(8080, 8180), 100
HERE_ONLY = "/usr/local/share/office"
# The folders in which each site has one of its own name.
FOLDERS = ("/var/lib/office-status", "/var/lib/office", "/var/log/office", "/var/www/office",
           "/etc/nginx/office", "/etc/office", "/run/office-recorder", "/run/office-reader")
UNITS = ("office", "office-reader", "office-recorder", "office-press", "office-backup",
         "office-status", "office-alarm")
TWO = "--two-of-board"
MADE_BY = {"StateDirectory", "RuntimeDirectory", "LogsDirectory"}


def at_site(text, site, desk, read):
    """A text of deploy/ with the places and ports of a site."""
    for old, new in (("/usr/local/bin/", "/usr/bin/"), ("/usr/local/lib/", "/usr/lib/"),
                     ("/usr/local/share/doc/office/", "/usr/share/doc/office/deploy/"),
                     (HERE_ONLY, f"/var/lib/office-site/{site}")):
        text = text.replace(old, new)
    folders = "|".join(FOLDERS)
    text = re.sub(rf"({folders})(?![\w-])", rf"\1/{site}", text)
    # (both at once: a desk may have the port that a reader has in these files)
    ports = {"8080": desk, "8090": read}
    return re.sub(r"(127\.0\.0\.1:|--port )(8080|8090)\b",
                  lambda it: f"{it[1]}{ports[it[2]]}", text)


def template_of(unit, text):
    """A unit of deploy/ as one of systemd's templates, of which `%i` is the site."""
    name, _, kind = unit.rpartition(".")
    lines = [f"# Made of deploy/{unit} by deploy/make-deb."]
    for line in re.sub(r"\A(#.*\n)+", "", text).splitlines():
        key, _, value = line.partition("=")
        if key == "InaccessiblePaths" or line.startswith("#"):
            pass  # those of all sites
        elif key in MADE_BY:
            line = f"{line}/%i"
        elif key == "Description":
            line = f"{line}, site %i"
        elif key in ("After", "OnFailure"):
            line = re.sub(r"\b(office[\w-]*)\.service", r"\1@%i.service", line)
        else:
            line = at_site(line, "%i", "${DESK}", "${READ}")
            line = re.sub(r"( -u office-\w+)\b", r"\1@%i", line)
            line = re.sub("/office/status$", r"\g<0> --config /etc/office/%i/status.toml", line)
        if key.startswith("ExecStart") and "${" in line:
            lines.append("EnvironmentFile=/etc/office/%i/ports")
        lines.append(line)
        if line == "[Unit]" and unit == "office.service":
            # Nothing else reaches the desk, or it does not start.
            lines += ["Requires=office-ports.service", "After=office-ports.service"]
    return f"{name}@.{kind}", "\n".join(lines) + "\n"


def ports_of(machine, site):
    """The ports of the desk and of the reader of a site; None where there is no site."""
    file = machine.at(f"/etc/office/{site}/ports")
    if not file.is_file():
        return None
    found = dict(re.findall(r"^(DESK|READ)=(\d+)$", file.read_text(), re.M))
    if len(found) < 2:
        raise Fault(f"{file} lacks a line DESK=PORT or READ=PORT")
    return int(found["DESK"]), int(found["READ"])


def sites_of(machine):
    """The sites of this computer, in the order of their ports."""
    files = machine.at("/etc/office").glob("*/ports")
    return sorted((file.parent.name for file in files), key=lambda name: ports_of(machine, name))


def whose(machine, site):
    """The site whose files a folder has, by its part of the proxy and by its looks: another one
    where somebody renamed or copied it, and none of them is its own."""
    names = []
    for place, its in ((f"/etc/nginx/office/{site}/site.conf", r"(?m)^ *server_name (\S+);"),
                       (f"/etc/office/{site}/status.toml", r'"/var/log/office/([^/"]+)/')):
        file = machine.at(place)
        names += re.findall(its, file.read_text("utf-8", "replace")) if file.is_file() else []
    return site if site in names or not names else names[0]


def board_of(machine, site):
    """Whether the recorder of a site asks for two of the board: the one that runs, or if none does
    the one that would be started."""
    words = machine.words_of(f"office-recorder@{site}")
    is_two = would_ask(machine, site) if words is None else TWO in words
    if not is_two and words is not None and is_asked_for(machine, site):
        return "one of the board: recorder.env asks for two, and the recorder that runs does not"
    return f"{'two' if is_two else 'one'} of the board"


def asks_otherwise(machine, site):
    """Whether the recorder of a site that runs asks for another number of the board than one that
    would be started."""
    words = machine.words_of(f"office-recorder@{site}")
    return words is not None and (TWO in words) != would_ask(machine, site)


def would_ask(machine, site):
    """Whether a recorder that is started asks for two of the board, by its unit, if there is one in
    the place of the package's, and by recorder.env."""
    files = (machine.at(f"/etc/systemd/system/office-recorder@{name}.service")
             for name in (site, ""))
    unit = next((file.read_text("utf-8", "replace") for file in files if file.is_file()),
                "$RECORDER")
    return bool(re.search(f"^[^#;]*{TWO}", unit, re.M)) or (
        "$RECORDER" in unit and is_asked_for(machine, site))


def is_asked_for(machine, site):
    """Whether recorder.env asks for two of the board. Of several lines systemd takes the last."""
    file = machine.at(f"/etc/office/{site}/recorder.env")
    text = file.read_text("utf-8", "replace") if file.is_file() else ""
    lines = re.findall(r"^[ \t]*RECORDER[ \t]*=(.*)", text, re.M)
    return bool(lines) and TWO in re.sub("[\"']", " ", lines[-1]).split()


def folders_of(site):
    """The folders of a site's own."""
    return [f"/{place}/{site}" for place in (
        "etc/office", "etc/nginx/office", "var/lib/office", "var/log/office", "var/www/office",
        "var/lib/office-site", "var/lib/office-status")]
