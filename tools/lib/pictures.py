"""What `kpart draw` has to show of a script, by the rules alone: the titles of its events."""
from xml.etree import ElementTree

from . import scripts

SVG = "{http://www.w3.org/2000/svg}"


def titles_in(picture):
    """The titles of a picture's events, in order; why there are none, of bytes that are no XML or no SVG."""
    try:
        root = ElementTree.fromstring(picture)
    except ElementTree.ParseError as why:
        return [str(why)]
    return [title.text for title in root.iter(f"{SVG}title")] if root.tag == f"{SVG}svg" else [root.tag]


def titles_of(script, first=1, last=2 ** 32):
    """What they have to be: each event's line of the script, and its line of the trace."""
    lines = script.decode().split("\n")
    numbered = [(int(told.split(" ")[0]), told) for told in scripts.run(script)[0].splitlines()]
    return [f"{lines[number - 1]}\n{told}" for number, told in numbered if first <= number <= last]
