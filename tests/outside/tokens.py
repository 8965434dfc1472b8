"""The html5lib tree tests as tokens: the .dat files read, and inputs cut into tags, texts and comments where this can be done plainly.

Anything that asks for more of a tokenizer (entities, broken tags, doctypes but the usual one) raises Skip with the reason."""
import re


class Skip(Exception):
    """The input is outside what is translated, and why."""


def tests_of(path):
    """The data, the context (None for a document) and the lines of the expected tree of each test of a file."""
    with open(path, encoding="utf-8", newline="") as f:
        text = "\n" + f.read()
    for part in text.split("\n#data\n")[1:]:
        data, _, rest = ("\n" + part).partition("\n#errors")
        data = data[1:]
        fragment = re.search(r"^#document-fragment\n(.*)$", rest, re.M)
        expected = rest.partition("\n#document\n")[2].rstrip("\n")
        yield data, fragment.group(1) if fragment else None, expected


ATTRIBUTE = r"""\s+[^\s"'<>/=]+(?:\s*=\s*(?:"[^"&]*"|'[^'&]*'|[^\s"'=<>`&]+))?"""
START = re.compile(r"<([a-zA-Z][^\s/><&]*)((?:%s)*)\s*/?>" % ATTRIBUTE)
END = re.compile(r"</([a-zA-Z][^\s/><&]*)\s*>")
COMMENT = re.compile(r"<!--(?!>|->)((?:(?!--).)*)-->", re.S)
TEXT = re.compile(r"[^<&]+")
DOCTYPE = re.compile(r"<!doctype html>", re.I)
ONE = re.compile(r"""\s+([^\s"'<>/=]+)(?:\s*=\s*(?:"([^"]*)"|'([^']*)'|([^\s"'=<>`]+)))?""")

# What follows these is text up to their end tag.
RAW = frozenset("title textarea style script xmp iframe noembed noframes".split())


def attributes(text):
    """Names and values in order; of equal names the first counts."""
    found = {}
    for name, *values in ONE.findall(text):
        found.setdefault(name.lower(), next((v for v in values if v), ""))
    return list(found.items())


def tokens(data):
    """("doctype",), ("start", name, attributes), ("end", name), ("text", text), ("comment", text), ("raw", text) after a start tag."""
    if "\r" in data or "\0" in data:
        raise Skip("carriage return or null")
    at = 0
    while at < len(data):
        start, end, comment, text = (x.match(data, at) for x in (START, END, COMMENT, TEXT))
        if at == 0 and DOCTYPE.match(data):
            at = len("<!doctype html>")
            yield ("doctype",)
        elif text:
            at = text.end()
            yield "text", text.group()
        elif comment:
            at = comment.end()
            yield "comment", comment.group(1)
        elif end:
            at = end.end()
            yield "end", end.group(1).lower()
        elif start:
            at = start.end()
            name = start.group(1).lower()
            yield "start", name, attributes(start.group(2))
            if name in RAW:
                stop = re.compile(r"</%s(?=[\s/>])" % name, re.I).search(data, at)
                raw = data[at:stop.start() if stop else len(data)]
                if "&" in raw and name in ("title", "textarea") or "<!--" in raw:
                    raise Skip("entities or comments in text")
                at += len(raw)
                yield "raw", raw
        else:
            raise Skip("more than a plain tokenizer")
