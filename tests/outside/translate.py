"""Tokens to calls: the standard's rules of 13.2.6 from before head to after after body, with the table modes and in template, as records.

The rules look at the stack; the model (tests/oracle/model) is run beside, and each record must be done by it. What calls 1 to 18 cannot
express, or what this does not translate (select, foreign content, framesets, attributes added to html or body, a form taken from the
middle of the stack), raises Skip."""
import os
import sys

sys.path.insert(0, os.path.join(os.path.dirname(os.path.abspath(__file__)), "..", "oracle"))
from generate.records import record  # noqa: E402
from model import builder, runs  # noqa: E402
from model.names import FIRST_HOST, HTML, ISINDEX, NUMBER, PAPER, TEMPLATE, text_of  # noqa: E402
from model.state import State  # noqa: E402
from tokens import RAW, Skip  # noqa: E402

SPACE = " \t\n\f"


def words(text):
    return frozenset(text.split())


VOID = words("area br embed img keygen wbr")
BLOCKS = words("address article aside blockquote center details dialog dir div dl fieldset figcaption figure footer header hgroup main menu nav ol p "
               "search section summary ul")
HEADINGS = words("h1 h2 h3 h4 h5 h6")
FORMATTING = words("a b big code em font i nobr s small strike strong tt u")
CLOSED = BLOCKS - {"p"} | words("button listing pre")
IN_HEAD = words("base basefont bgsound link meta")
TABLE_PARTS = words("caption col colgroup tbody td tfoot th thead tr")
SECTIONS = words("tbody tfoot thead")
LEFT_OUT = words("select svg math frameset plaintext noscript frame menuitem isindex command")
MODES = {n + 1: name.replace(" ", "_") for n, name in enumerate(builder.MODES)}


# Contexts whose fragments begin in another tokenizer state, or in a mode that is left out.
NO_CONTEXTS = RAW | words("plaintext noscript select frameset")


class Translator:
    """context: None for a document, else the name of the HTML element whose fragment it is."""

    def __init__(self, context=None):
        if context is not None and (" " in context or context in NO_CONTEXTS):
            raise Skip("a fragment of %s" % context)
        self.s, self.records, self.texts, self.hosts = State(runs.ROOM), [], [], {}
        builder.begin(self.s, None if context is None else (HTML, self.number(context), 0))
        self.begun = self.s.save().pack()
        self.mode, self.back, self.form = "before_head", None, self if context == "form" else None
        self.quirks, self.html_seen, self.drop_line, self.pending = context is None, context is not None, False, None
        if context is not None:
            self.reset()

    # ---- records

    def emit(self, *numbers, pairs=None):
        r = record(*numbers, pairs=pairs)
        answer, _ = runs.single(self.s, r)
        if answer:
            raise Skip("a call is refused with %d" % answer)
        self.records.append(r)

    def number(self, name):
        if name in NUMBER:
            return NUMBER[name]
        if name not in self.hosts:
            n = FIRST_HOST + len(self.hosts)
            self.hosts[name] = n + (n >= ISINDEX)
        return self.hosts[name]

    def name_of(self, n):
        return next((k for k, v in self.hosts.items() if v == n), None) or text_of(n)

    def string(self, text):
        """A text's number: equal ones have the same, as equal tags are told by their numbers."""
        if text not in self.texts:
            self.texts.append(text)
        return self.texts.index(text)

    def pairs(self, attributes):
        return [(self.number(n), self.string(v)) for n, v in attributes]

    def element(self, name, attributes=(), push=1):
        self.emit(1, HTML, self.number(name), push, pairs=self.pairs(attributes))

    def text(self, text):
        if text:
            self.emit(2, self.string(text))

    def pop(self):
        self.emit(14)

    def pop_until(self, *names):
        while True:
            last = self.current()
            self.pop()
            if last in names:
                return

    def pop_back_to(self, *names):
        while self.current() not in names:
            self.pop()

    # ---- what the rules ask

    def current(self):
        node = self.s.stack[-1]
        return self.name_of(node.name) if node.space == HTML else None

    def scoped(self, scope, *names):
        return builder.has_in_scope(self.s, lambda n: n.space == HTML and self.name_of(n.name) in names, scope)

    def in_scope(self, *names):
        return self.scoped(PAPER.default_scope, *names)

    def in_button_scope(self, *names):
        return self.scoped(PAPER.button_scope, *names)

    def in_table_scope(self, *names):
        return self.scoped(PAPER.table_scope, *names)

    def close_p(self):
        if self.in_button_scope("p"):
            self.emit(11)

    def implied(self, but=""):
        self.emit(13, 0, self.number(but) if but else 0)

    def reset(self):
        self.mode = MODES[builder.reset_insertion_mode(self.s)]

    def in_a_template(self):
        return any(n.tag == TEMPLATE for n in self.s.stack)

    # ---- tokens

    def take(self, token):
        if self.drop_line:
            self.drop_line = False
            if token[0] in ("text", "raw") and token[1].startswith("\n"):
                token = (token[0], token[1][1:])
        if token[0] == "doctype":
            self.quirks = False
        elif token[0] == "raw":
            self.text(token[1])
        elif token[0] == "text":
            self.characters(token[1])
        else:
            self.dispatch(token)

    def dispatch(self, token):
        if self.mode == "in_table_text":
            self.flush()
        if token[0] != "comment" and token[1] in LEFT_OUT:
            raise Skip(token[1])
        if token[0] == "end" and self.current() in RAW:
            self.pop()
            return
        if token[0] != "comment" and token[1] == "template" and self.mode not in ("before_head", "after_head", "after_body", "after_after_body"):
            self.template(*token)
            return
        getattr(self, self.mode)(*token, *([()] * (3 - len(token))))

    def finish(self):
        if self.mode == "in_table_text":
            self.flush()
        if self.current() in RAW:
            self.pop()
        while self.in_a_template():
            self.pop_until("template")
            self.emit(6)
            self.emit(17)
            self.reset()
        while self.mode in ("before_head", "in_head", "after_head"):
            self.leave_head()

    def characters(self, text):
        """Runs of spaces and of others apart: the modes around the body treat them differently."""
        while text:
            n = len(text) - len(text.lstrip(SPACE))
            if self.mode in ("before_head", "in_head", "after_head", "in_column_group", "after_body", "after_after_body"):
                if n:
                    self.spaces(text[:n])
                    text = text[n:]
                elif self.mode == "in_column_group":
                    if self.current() != "colgroup":
                        text = text.lstrip("".join(set(text) - set(SPACE)))
                        continue
                    self.pop()
                    self.mode = "in_table"
                elif self.mode.startswith("after_") and self.mode != "after_head":
                    self.mode = "in_body"
                else:
                    self.leave_head()
            elif self.in_table_now():
                self.mode, self.back, self.pending = "in_table_text", self.mode, text
                return
            elif self.mode == "in_table_text":
                self.pending += text
                return
            elif self.mode in ("in_table", "in_table_body", "in_row"):
                self.fostered(lambda: self.body_text(text))
                return
            else:
                self.body_text(text)
                return

    def spaces(self, text):
        if self.mode in ("in_head", "after_head", "in_column_group"):
            self.text(text)
        elif self.mode.startswith("after_"):
            self.body_text(text)

    def body_text(self, text):
        self.emit(7)
        self.text(text)

    def in_table_now(self):
        return self.mode in ("in_table", "in_table_body", "in_row") and self.current() in ("table", "tbody", "template", "tfoot", "thead", "tr")

    def flush(self):
        text, self.pending, self.mode = self.pending, None, self.back
        if text.strip(SPACE):
            self.fostered(lambda: self.body_text(text))
        else:
            self.text(text)

    def fostered(self, act):
        self.emit(15, 1)
        act()
        self.emit(15, 0)

    # ---- around the head

    def leave_head(self):
        if self.mode == "before_head":
            self.element("head")
            self.emit(18, 1)
            self.mode = "in_head"
        elif self.mode == "in_head":
            self.pop()
            self.mode = "after_head"
        else:
            self.element("body")
            self.mode = "in_body"

    def before_head(self, kind, name, attributes):
        if kind == "comment":
            if not self.html_seen:
                raise Skip("a comment before html")
            self.comment(name)
        elif kind == "start" and name == "html":
            self.html(attributes)
        elif kind == "start" and name == "head":
            self.element("head", attributes)
            self.emit(18, 1)
            self.mode = "in_head"
        elif kind == "end" and name not in ("head", "body", "html", "br"):
            return
        else:
            self.leave_head()
            self.dispatch((kind, name, attributes))

    def html(self, attributes):
        if attributes and not self.in_a_template():
            raise Skip("attributes added to html")
        self.html_seen = True

    def comment(self, text, place=0):
        self.emit(3, place, self.string(text))

    def in_head(self, kind, name, attributes):
        if kind == "comment":
            self.comment(name)
        elif kind == "start" and name == "html":
            self.html(attributes)
        elif kind == "start" and name in IN_HEAD:
            self.element(name, attributes, 0)
        elif kind == "start" and name in ("title", "style", "script", "noframes"):
            self.element(name, attributes)
        elif kind == "start" and name == "head" or kind == "end" and name not in ("head", "body", "html", "br"):
            return
        elif kind == "end" and name == "head":
            self.leave_head()
        else:
            self.leave_head()
            self.dispatch((kind, name, attributes))

    def after_head(self, kind, name, attributes):
        if kind == "comment":
            self.comment(name)
        elif kind == "start" and name == "html":
            self.html(attributes)
        elif kind == "start" and name == "body":
            self.element("body", attributes)
            self.mode = "in_body"
        elif kind == "start" and (name in IN_HEAD or name in ("title", "style", "script", "noframes", "template")):
            raise Skip("the head again")
        elif kind == "end" and name == "template":
            self.template(kind, name)
        elif kind == "start" and name == "head" or kind == "end" and name not in ("body", "html", "br"):
            return
        else:
            self.leave_head()
            self.dispatch((kind, name, attributes))

    # ---- in body

    def in_body(self, kind, name, attributes):
        if kind == "comment":
            self.comment(name)
        elif kind == "start":
            self.start_in_body(name, attributes)
        else:
            self.end_in_body(name)

    def start_in_body(self, name, attributes):
        if name in ("html", "body"):
            if attributes and not self.in_a_template():
                raise Skip("attributes added to %s" % name)
        elif name in IN_HEAD:
            self.element(name, attributes, 0)
        elif name in ("title", "style", "script", "noframes", "iframe", "noembed", "textarea"):
            self.element(name, attributes)
            self.drop_line = name == "textarea"
        elif name in BLOCKS:
            self.close_p()
            self.element(name, attributes)
        elif name in HEADINGS:
            self.close_p()
            if self.current() in HEADINGS:
                self.pop()
            self.element(name, attributes)
        elif name in ("pre", "listing"):
            self.close_p()
            self.element(name, attributes)
            self.drop_line = True
        elif name == "form":
            self.start_form(attributes)
        elif name in ("li", "dd", "dt"):
            self.start_item(name, attributes)
        elif name in FORMATTING:
            self.start_formatting(name, attributes)
        elif name == "table":
            if not self.quirks:
                self.close_p()
            self.element(name, attributes)
            self.mode = "in_table"
        else:
            self.other_start(name, attributes)

    def other_start(self, name, attributes):
        if name == "button":
            if self.in_scope("button"):
                self.implied()
                self.pop_until("button")
            self.emit(7)
            self.element(name, attributes)
        elif name in ("applet", "marquee", "object"):
            self.emit(7)
            self.element(name, attributes)
            self.emit(5)
        elif name in VOID or name == "input" or name == "image":
            self.emit(7)
            self.element("img" if name == "image" else name, attributes, 0)
        elif name in ("param", "source", "track"):
            self.element(name, attributes, 0)
        elif name == "hr":
            self.close_p()
            self.element(name, attributes, 0)
        elif name == "xmp":
            self.close_p()
            self.emit(7)
            self.element(name, attributes)
        elif name in ("optgroup", "option"):
            if self.current() == "option":
                self.pop()
            self.emit(7)
            self.element(name, attributes)
        elif name in ("rb", "rtc", "rp", "rt"):
            if self.in_scope("ruby"):
                self.implied("rtc" if name in ("rp", "rt") else "")
            self.element(name, attributes)
        elif name in TABLE_PARTS or name == "head":
            return
        else:
            self.emit(7)
            self.element(name, attributes)

    def start_formatting(self, name, attributes):
        if name == "a":
            self.emit(9)
        self.emit(7)
        if name == "nobr" and self.in_scope("nobr"):
            self.emit(8, self.number("nobr"))
            self.emit(7)
        self.emit(4, self.number(name), pairs=self.pairs(attributes))

    def start_form(self, attributes):
        inside = self.in_a_template()
        if self.form is not None and not inside:
            return
        self.close_p()
        self.element("form", attributes)
        if not inside:
            self.form = self.s.stack[-1]

    def start_item(self, name, attributes):
        """li, dd, dt: an open one that no special element but address, div and p lies above is closed."""
        wanted = ("li",) if name == "li" else ("dd", "dt")
        for node in reversed(self.s.stack):
            other = self.name_of(node.name)
            if node.space == HTML and other in wanted:
                self.implied(other)
                self.pop_until(other)
                break
            if node.tag in PAPER.special and other not in ("address", "div", "p"):
                break
        self.close_p()
        self.element(name, attributes)

    def end_in_body(self, name):
        if name in ("body", "html"):
            if self.in_scope("body"):
                self.mode = "after_body"
                if name == "html":
                    self.dispatch(("end", "html"))
        elif name in CLOSED:
            self.end_if(self.in_scope(name), "", name)
        elif name == "form":
            self.end_form()
        elif name == "p":
            if not self.in_button_scope("p"):
                self.element("p")
            self.emit(11)
        elif name == "li":
            self.end_if(self.scoped(PAPER.list_item_scope, "li"), "li", "li")
        elif name in ("dd", "dt"):
            self.end_if(self.in_scope(name), name, name)
        elif name in HEADINGS:
            self.end_if(self.in_scope(*HEADINGS), "", *HEADINGS)
        elif name in FORMATTING:
            self.emit(8, self.number(name))
        elif name in ("applet", "marquee", "object"):
            if self.in_scope(name):
                self.end_if(True, "", name)
                self.emit(6)
        elif name == "br":
            self.emit(7)
            self.element("br", (), 0)
        else:
            self.emit(10, self.number(name))

    def end_if(self, there, but, *names):
        if there:
            self.implied(but)
            self.pop_until(*names)

    def end_form(self):
        if self.in_a_template():
            self.end_if(self.in_scope("form"), "", "form")
            return
        node, self.form = self.form, None
        if node is None or not builder.has_in_scope(self.s, lambda n: n is node, PAPER.default_scope):
            return
        self.implied()
        if self.s.stack[-1] is not node:
            raise Skip("a form from the middle of the stack")
        self.pop()

    # ---- tables

    def in_table(self, kind, name, attributes):
        if kind == "comment":
            self.comment(name)
        elif kind == "start" and name in ("caption", "col", "colgroup", "tbody", "tfoot", "thead", "td", "th", "tr"):
            self.start_in_table(name, attributes)
        elif kind == "start" and name == "table":
            if self.in_table_scope("table"):
                self.end_table()
                self.dispatch((kind, name, attributes))
        elif kind == "end" and name == "table":
            if self.in_table_scope("table"):
                self.end_table()
        elif kind == "end" and (name in TABLE_PARTS or name in ("body", "html")):
            return
        elif kind == "start" and name in ("style", "script"):
            self.element(name, attributes)
        elif kind == "start" and name == "input" and dict(attributes).get("type", "").lower() == "hidden":
            self.element(name, attributes, 0)
        elif kind == "start" and name == "form":
            if self.form is None and not self.in_a_template():
                self.element(name, attributes)
                self.form = self.s.stack[-1]
                self.pop()
        else:
            self.fostered(lambda: self.in_body(kind, name, attributes))

    def end_table(self):
        self.pop_until("table")
        self.reset()

    def start_in_table(self, name, attributes):
        self.pop_back_to("table", "template", "html")
        if name == "caption":
            self.emit(5)
            self.element(name, attributes)
            self.mode = "in_caption"
        elif name in ("colgroup", "col"):
            self.element("colgroup", attributes if name == "colgroup" else ())
            self.mode = "in_column_group"
            if name == "col":
                self.dispatch(("start", name, attributes))
        elif name in SECTIONS:
            self.element(name, attributes)
            self.mode = "in_table_body"
        else:
            self.element("tbody")
            self.mode = "in_table_body"
            self.dispatch(("start", name, attributes))

    def in_caption(self, kind, name, attributes):
        ends = kind == "end" and name == "caption"
        if ends or kind == "start" and name in TABLE_PARTS or kind == "end" and name == "table":
            if not self.in_table_scope("caption"):
                return
            self.implied()
            self.pop_until("caption")
            self.emit(6)
            self.mode = "in_table"
            if not ends:
                self.dispatch((kind, name, attributes))
        elif kind == "end" and (name in TABLE_PARTS or name in ("body", "html")):
            return
        else:
            self.in_body(kind, name, attributes)

    def in_column_group(self, kind, name, attributes):
        if kind == "comment":
            self.comment(name)
        elif kind == "start" and name == "html":
            self.html(attributes)
        elif kind == "start" and name == "col":
            self.element(name, attributes, 0)
        elif kind == "end" and name == "col":
            return
        elif self.current() == "colgroup":
            self.pop()
            self.mode = "in_table"
            if not (kind == "end" and name == "colgroup"):
                self.dispatch((kind, name, attributes))

    def in_table_body(self, kind, name, attributes):
        if kind == "start" and name == "tr":
            self.pop_back_to("tbody", "tfoot", "thead", "template", "html")
            self.element(name, attributes)
            self.mode = "in_row"
        elif kind == "start" and name in ("th", "td"):
            self.pop_back_to("tbody", "tfoot", "thead", "template", "html")
            self.element("tr")
            self.mode = "in_row"
            self.dispatch((kind, name, attributes))
        elif kind == "end" and name in SECTIONS:
            if self.in_table_scope(name):
                self.end_section()
        elif kind == "start" and name in ("caption", "col", "colgroup", "tbody", "tfoot", "thead") or kind == "end" and name == "table":
            if self.in_table_scope(*SECTIONS):
                self.end_section()
                self.dispatch((kind, name, attributes))
        elif kind == "end" and name in ("body", "caption", "col", "colgroup", "html", "td", "th", "tr"):
            return
        else:
            self.in_table(kind, name, attributes)

    def end_section(self):
        self.pop_back_to("tbody", "tfoot", "thead", "template", "html")
        self.pop()
        self.mode = "in_table"

    def in_row(self, kind, name, attributes):
        if kind == "start" and name in ("th", "td"):
            self.pop_back_to("tr", "template", "html")
            self.element(name, attributes)
            self.mode = "in_cell"
            self.emit(5)
        elif kind == "end" and name == "tr":
            self.end_row()
        elif kind == "start" and name in TABLE_PARTS or kind == "end" and name == "table":
            if self.end_row():
                self.dispatch((kind, name, attributes))
        elif kind == "end" and name in SECTIONS:
            if self.in_table_scope(name) and self.end_row():
                self.dispatch((kind, name, attributes))
        elif kind == "end" and name in ("body", "caption", "col", "colgroup", "html", "td", "th"):
            return
        else:
            self.in_table(kind, name, attributes)

    def end_row(self):
        if not self.in_table_scope("tr"):
            return False
        self.pop_back_to("tr", "template", "html")
        self.pop()
        self.mode = "in_table_body"
        return True

    def in_cell(self, kind, name, attributes):
        if kind == "end" and name in ("td", "th"):
            if self.in_table_scope(name):
                self.implied()
                self.pop_until(name)
                self.emit(6)
                self.mode = "in_row"
        elif kind == "start" and name in TABLE_PARTS:
            self.emit(12)
            self.mode = "in_row"
            self.dispatch((kind, name, attributes))
        elif kind == "end" and name in ("body", "caption", "col", "colgroup", "html"):
            return
        elif kind == "end" and name in ("table", "tbody", "tfoot", "thead", "tr"):
            if self.in_table_scope(name):
                self.emit(12)
                self.mode = "in_row"
                self.dispatch((kind, name, attributes))
        else:
            self.in_body(kind, name, attributes)

    # ---- templates

    def template(self, kind, name, attributes=()):
        if kind == "start":
            self.element(name, attributes)
            self.emit(5)
            self.mode = "in_template"
            self.emit(16, builder.IN_TEMPLATE)
        elif self.in_a_template():
            self.emit(13, 1, 0)
            self.pop_until("template")
            self.emit(6)
            self.emit(17)
            self.reset()

    def in_template(self, kind, name, attributes):
        found = {**dict.fromkeys(("caption", "colgroup", "tbody", "tfoot", "thead"), "in table"), "col": "in column group", "tr": "in table body",
                 "td": "in row", "th": "in row"}
        if kind == "start" and name in found:
            self.emit(17)
            self.emit(16, builder.MODE[found[name]])
            self.mode = found[name].replace(" ", "_")
            self.dispatch((kind, name, attributes))
        elif kind == "start" or kind == "comment":
            if kind == "start" and name not in IN_HEAD and name not in ("noframes", "script", "style", "title"):
                self.emit(17)
                self.emit(16, builder.MODE["in body"])
                self.mode = "in_body"
            self.in_body(kind, name, attributes)

    # ---- after body

    def after_body(self, kind, name, attributes):
        if kind == "comment":
            self.comment(name, 1)
        elif kind == "end" and name == "html":
            self.mode = "after_after_body"
        else:
            self.mode = "in_body"
            self.dispatch((kind, name, attributes))

    def after_after_body(self, kind, name, attributes):
        if kind == "comment":
            self.comment(name, 2)
        else:
            self.mode = "in_body"
            self.dispatch((kind, name, attributes))
