"""Numbers, records, names by use, and choices among them."""
from model.names import FIRST_HOST, FORMATTING_NAMES, HTML, ISINDEX, MATHML, NUMBER, SVG, TABLE


def number(n):
    out = bytearray()
    while n > 127:
        out.append(n & 127 | 128)
        n >>= 7
    out.append(n)
    return bytes(out)


def record(call, *args, pairs=None):
    out = b"".join(number(x) for x in (call, *args))
    if pairs is not None:
        out += number(len(pairs)) + b"".join(number(n) + number(v) for n, v in pairs)
    return out


def names(words):
    return [NUMBER[w] for w in words.split()]


FEW_FORMATTING = names("a b i u s font nobr")
FORMATTING = sorted(FORMATTING_NAMES)
BLOCKS = names("p div address ul li h1 blockquote button body center dd dt search keygen section")
PLAIN = names("span dialog ruby sub")
IMPLIED = names("dd dt li optgroup option p rb rp rt rtc caption colgroup tbody td tfoot th thead tr")
TABLES = names("table tbody tr td th caption thead tfoot colgroup")
BOUNDARIES = names("applet marquee object select template caption html table td")
MATHS = names("mi mo mn ms mtext annotation-xml math mglyph malignmark p")
INLINE = names("p p b a annotation-xml span select search")
SVGS = names("svg foreignObject desc title foreignobject template p b table")
HOSTS = [FIRST_HOST, 600, ISINDEX, 65535]
CONTEXTS = names("html head body td th tr tbody table caption colgroup template frameset title textarea style script noscript "
                 "plaintext xmp iframe noembed noframes div select")
ATTRIBUTES = names("id href color size face type encoding") + [FIRST_HOST + 3]
NOT_NAMES = [0, len(TABLE) + 1, 400, FIRST_HOST - 1]

ANNOTATION_XML = NUMBER["annotation-xml"]

# Elements that the Rust's sets treat otherwise.
DIFFERENT = ([(HTML, n) for n in names("search keygen select select") + [ISINDEX]] + [(MATHML, ANNOTATION_XML)] * 3
             + [(MATHML, NUMBER["mi"]), (SVG, NUMBER["desc"]), (SVG, NUMBER["foreignObject"])])

P, DIV, B, A, HTML_NAME, BODY_NAME = names("p div b a html body")


class Choice:
    """Choices from one source of randomness."""

    def __init__(self, rng):
        self.rng = rng
        self.pick = rng.choice
        self.below = rng.randrange

    def chance(self, p):
        return self.rng.random() < p

    def weighted(self, weights):
        return self.rng.choices(list(weights), list(weights.values()))[0]

    # ---- arguments
    def name(self):
        pool = self.weighted({"few": 20, "blocks": 20, "plain": 8, "implied": 10, "tables": 12, "bounds": 10, "host": 4, "any": 3})
        return {"few": lambda: self.pick(FEW_FORMATTING), "blocks": lambda: self.pick(BLOCKS), "plain": lambda: self.pick(PLAIN),
                "implied": lambda: self.pick(IMPLIED), "tables": lambda: self.pick(TABLES),
                "bounds": lambda: self.pick(BOUNDARIES), "host": lambda: self.pick(HOSTS),
                "any": lambda: 1 + self.below(len(TABLE))}[pool]()

    def tag(self, foreign=0.12):
        if self.chance(0.06):
            return self.pick(DIFFERENT)
        if not self.chance(foreign):
            return HTML, self.name()
        return (MATHML, self.pick(MATHS)) if self.chance(0.5) else (SVG, self.pick(SVGS))

    def mark(self, space, name):
        return int((space, name) == (MATHML, ANNOTATION_XML) and self.chance(0.5))

    def pairs(self, p=0.3):
        """Few names and values, so that tags are often equal, or equal up to order."""
        if not self.chance(p):
            return []
        if self.chance(0.5):
            return self.pick([[(ATTRIBUTES[0], 0), (ATTRIBUTES[1], 0)], [(ATTRIBUTES[1], 0), (ATTRIBUTES[0], 0)], [(ATTRIBUTES[0], 0)]])
        count = self.weighted({1: 40, 2: 50, 3: 9, 16: 1})
        pool = ATTRIBUTES if count > 3 else ATTRIBUTES[:3]
        if count == 16:
            pool = list(range(1, 40))
        return [(n, self.below(2)) for n in self.rng.sample(pool, count)]

    def wrong_pairs(self):
        return self.pick([[(P, 1), (P, 2)], [(0, 1)], [(400, 1)], [(i + 1, 0) for i in range(17)]])

    def context(self):
        if self.chance(0.6):
            return None
        space, name = (HTML, self.pick(CONTEXTS)) if self.chance(0.75) else self.tag(0.9)
        return space, name, self.mark(space, name)
