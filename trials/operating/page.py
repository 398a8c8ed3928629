"""The blocks of a page."""

import re


def blocks(path):
    """The blocks of each section, in order, under the section's name."""
    found = {}
    for part in re.split(r"^## ", open(path).read(), flags=re.M)[1:]:
        found[part.splitlines()[0]] = re.findall(r"```sh\n(.*?)```", part, flags=re.S)
    return found
