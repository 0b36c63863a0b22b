"""The proxy of a computer that has several sites: nginx.conf, and the files of each site.

They are made of deploy/nginx.conf and deploy/nginx/. A variable or an upstream that one site has
otherwise than another gets the port of its desk in its name; what does not differ is there once."""

import re

from site_places import at_site

NAME = "office.example"
# In the place of the name of a site while a text is made.
HERE = "\0"
MARK = "# Written by office-site, and again at each run: /usr/share/doc/office/deploy/README.md."
# The names that make a directive that of a site.
OWN = re.compile(r"include office/|office\.example|/var/www/office|/etc/nginx/office")
# Another name than those of the sites gets no answer, and many sites have many names.
MORE = """
    server {
        listen 80 default_server;
        return 421;
    }

    variables_hash_max_size 8192;
    server_names_hash_max_size 4096;
    server_names_hash_bucket_size 128;
"""


def directives(text):
    """The text before http, and its directives, each with the comments before it."""
    head, _, rest = text.partition("\nhttp {\n")
    found, lines, first = [], [], ""
    for line in rest[:rest.rindex("\n}")].split("\n"):
        lines.append(line)
        if not line.strip() or line.strip().startswith("#"):
            continue
        first = first or line
        if line == "    }" if first.endswith("{") else line.endswith((";", "}")):
            found.append("\n".join(lines))
            lines, first = [], ""
    return head, found


def bare(directive):
    """A directive without its comments."""
    return re.sub(r"^\s*#.*\n", "", directive, flags=re.M).strip()


def divided(text, parts):
    """The directives that are there once, those of each site, and the variables of a site."""
    found = directives(text)[1]
    own, grown = variables_of(parts.values()), True
    while grown:
        ours = [one for one in found if is_own(one, own)]
        grown = variables_of(ours) - own
        own |= grown
    return [one for one in found if one not in ours], ours, own


def is_own(directive, own):
    text = bare(directive)
    return bool(OWN.search(text)) or bool(own & set(re.findall(r"\$(\w+)", text)))


def variables_of(found):
    """The variables that maps make."""
    return {name for one in found for name in re.findall(r"^map .* \$(\w+) \{", bare(one), re.M)}


def named(text, own, site, desk):
    """A text of the proxy with the variables, upstreams, places and name of a site."""
    # (in a site's own name nothing is replaced: it is put in last)
    text = text.replace(NAME, HERE).replace("refused.log", f"refused-{HERE}.log")
    text = re.sub(r"\$(\w+)", lambda it: f"${it[1]}_{desk}" if it[1] in own else it[0], text)
    text = re.sub(r"(http://|upstream |\$asked )(office|names|recorder)(?=[$1-9])", rf"\1\2_{desk}_", text)
    text = re.sub(r"(?<![/\w])office/(?=[\w.-]+\.(conf|pem))", f"office/{HERE}/",
                  at_site(text, HERE, "", ""))
    return text.replace("FILL IN the name", "The name").replace(HERE, site)


def with_port(text, parts, kept, desk):
    """A file that an administrator keeps with the variables of a site that has this port, whatever
    its port was when that was written."""
    own = "|".join(sorted(divided(text, parts)[2]))
    return re.sub(rf"\$({own})(_\d+)?\b", rf"$\1_{desk}", kept)


def whole(text, parts, sites, with_ipv6):
    """nginx.conf, for sites in this order."""
    head, _ = directives(text)
    once = "\n".join(divided(text, parts)[0])
    sites = "".join(f"    include office/{site}/site.conf;\n" for site in sites)
    head = re.sub(r"\A(#.*\n)+", f"{MARK}\n", head)
    return listening(f"{head}\nhttp {{\n{once}\n{MORE}{sites}}}\n", with_ipv6)


def of_site(text, parts, site, desk, with_ipv6):
    """The files of a site, by their names: site.conf, and its parts."""
    _, ours, own = divided(text, parts)
    said = "\n".join(ours).replace(
        "listen 80 default_server;", f"listen 80;\n        server_name {NAME};")
    found = {name: named(part, own, site, desk) for name, part in parts.items()}
    found["site.conf"] = f"{MARK}\n" + listening(named(said, own, site, desk), with_ipv6) + "\n"
    return found


def listening(text, with_ipv6):
    """A text that listens on IPv6 too, if the computer has it."""
    more = r"\g<0>\n\1listen [::]:\2;"
    return re.sub(r"^( *)listen (\d+.*);", more, text, flags=re.M) if with_ipv6 else text
