"""Module 1: names, their numbers, and the sets."""
import os

HTML, MATHML, SVG = 0, 1, 2
FIRST_HOST = 512

with open(os.path.join(os.path.dirname(os.path.abspath(__file__)), "..", "names.txt"), encoding="ascii") as _f:
    TABLE = _f.read().split("\n")[:-1]

assert all(a.encode() < b.encode() for a, b in zip(TABLE, TABLE[1:]))

NUMBER = {name: i + 1 for i, name in enumerate(TABLE)}

# The Rust's special set has `isindex`, which is no name of ours. In the comparison host number 699 has these bytes.
ISINDEX = 699


def known(number):
    return 1 <= number <= len(TABLE) or FIRST_HOST <= number <= 65535


def text_of(number):
    return TABLE[number - 1] if number <= len(TABLE) else "?%d" % number


def _tags(space, words):
    return frozenset((space, NUMBER[w]) for w in words.split())


def html(words):
    return _tags(HTML, words)


FORMATTING_NAMES = frozenset(NUMBER[w] for w in "a b big code em font i nobr s small strike strong tt u".split())

FOREIGN_SPECIAL = _tags(MATHML, "mi mo mn ms mtext annotation-xml") | _tags(SVG, "foreignObject desc title")

SPECIAL = FOREIGN_SPECIAL | html(
    "address applet area article aside base basefont bgsound blockquote body br button caption center col colgroup dd "
    "details dir div dl dt embed fieldset figcaption figure footer form frame frameset h1 h2 h3 h4 h5 h6 head header "
    "hgroup hr html iframe img input keygen li link listing main marquee menu meta nav noembed noframes noscript object "
    "ol p param plaintext pre script search section select source style summary table tbody td template textarea tfoot "
    "th thead title tr track ul wbr xmp")

DEFAULT_SCOPE = FOREIGN_SPECIAL | html("applet caption html table td th marquee object template")
TABLE_SCOPE = html("html table template")

CURSORY = html("dd dt li optgroup option p rb rp rt rtc")
THOROUGH = CURSORY | html("caption colgroup tbody td tfoot th thead tr")

FOSTERING = html("table tbody tfoot thead tr")
CELLS = html("td th")

MATHML_TEXT_POINTS = _tags(MATHML, "mi mo mn ms mtext")
SVG_HTML_POINTS = _tags(SVG, "foreignObject desc title")
ANNOTATION = (MATHML, NUMBER["annotation-xml"])
TEMPLATE = (HTML, NUMBER["template"])
TABLE_TAG = (HTML, NUMBER["table"])
ROOT = (HTML, NUMBER["html"])


class Rules:
    """The sets and choices that the model works by: document 01's, or some of them as the Rust has them.

    The numbers are those of the list "Where the Rust differs"."""

    def __init__(self, rust=()):
        self.rust = frozenset(rust)
        special, scope = set(SPECIAL), set(DEFAULT_SCOPE)
        if 1 in rust:
            special -= FOREIGN_SPECIAL
        if 2 in rust:
            special -= html("keygen search")
        if 3 in rust:
            special.add((HTML, ISINDEX))
        if 4 in rust:
            scope.remove(ANNOTATION)
        if 5 in rust:
            scope |= html("select")
        self.special = frozenset(special)
        self.default_scope = frozenset(scope)
        self.list_item_scope = self.default_scope | html("ol ul")
        self.button_scope = self.default_scope | html("button")
        self.table_scope = TABLE_SCOPE
        self.attributes_in_order = 6 not in rust
        self.contents_below_table = 7 not in rust
        self.contents_around_table = 8 not in rust


PAPER = Rules()
RUST = Rules(range(1, 9))
