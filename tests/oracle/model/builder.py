"""Modules 3 to 8: the calls of document 01, one function each, with the standard's steps."""
from .names import (ANNOTATION, CELLS, CURSORY, FORMATTING_NAMES, FOSTERING, HTML, MATHML_TEXT_POINTS, NUMBER, ROOT,
                    SVG_HTML_POINTS, TABLE_TAG, TEMPLATE, THOROUGH, known)
from .saved import DOCUMENT, TEXT
from .sound import tag_is_allowed
from .state import Refused, append, insert_before, move_children

IN_TEMPLATE = 16


def check_tag(space, name, mark):
    if not tag_is_allowed(space, name, mark):
        raise Refused(2)


def check_name(name):
    if not known(name):
        raise Refused(2)


def check_flag(value, most=1):
    if value > most:
        raise Refused(2)


def check_pairs(pairs):
    names = [name for name, _ in pairs]
    if len(names) > 16 or len(set(names)) != len(names) or not all(known(n) for n in names):
        raise Refused(2)


# ---- begin

def begin(s, context):
    """Overwrites any state: s is a new one, empty but for its room. Two nodes, one open element, for an HTML template one mode."""
    if context is not None:
        check_tag(*context)
    s.need(nodes=2)
    in_template = context is not None and context[:2] == TEMPLATE
    if in_template and s.room[2] < 1:
        raise Refused(6)
    document = s.new_node(DOCUMENT)
    root = s.new_element(*ROOT)
    append(document, root)
    s.stack.append(root)
    if in_template:
        s.modes.append(IN_TEMPLATE)
    s.context = context


# ---- module 3: the stack of open elements (13.2.4.2)

def has_in_scope(s, wanted, scope):
    """"Has an element in the specific scope": 1. node is the current node. 2. A match if it is the target. 3. A failure if it
    is in the list. 4. Else the entry above it."""
    for node in reversed(s.stack):
        if wanted(node):
            return True
        if node.tag in scope:
            return False
    return False


def generate_implied_end_tags(s, kinds, except_name=0):
    """13.2.6.3: while the current node is one of these, pop it; HTML elements with the excepted name stay."""
    while s.stack[-1].tag in kinds and s.stack[-1].name != except_name:
        s.stack.pop()


def pop_through(s, wanted):
    """Pop elements until one of the wanted has been popped."""
    while not wanted(s.stack.pop()):
        pass


def any_other_end_tag(s, name):
    """13.2.6.4.7, "any other end tag"."""
    for node in reversed(s.stack):                      # 1., 4., 5.
        if node.tag == (HTML, name):                    # 2.
            generate_implied_end_tags(s, CURSORY, name)
            pop_through(s, lambda n: n is node)
            return
        if node.tag in s.rules.special:                 # 3.
            return


def call_10_process_end_tag_in_body(s, name):
    check_name(name)
    if (HTML, name) == ROOT:
        raise Refused(2)
    any_other_end_tag(s, name)


def call_11_close_p_element(s):
    def is_p(node):
        return node.tag == (HTML, NUMBER["p"])
    if not has_in_scope(s, is_p, s.rules.button_scope):
        raise Refused(3)
    generate_implied_end_tags(s, CURSORY, NUMBER["p"])  # 1.
    pop_through(s, is_p)                                # 3.


def call_12_close_the_cell(s):
    def is_cell(node):
        return node.tag in CELLS
    if not has_in_scope(s, is_cell, s.rules.table_scope):
        raise Refused(3)
    generate_implied_end_tags(s, CURSORY)               # 1.
    pop_through(s, is_cell)                             # 3.
    call_6_clear_to_marker(s)                           # 4.


def call_13_implied_end_tags(s, kind, except_name):
    check_flag(kind)
    if except_name:
        check_name(except_name)
    generate_implied_end_tags(s, THOROUGH if kind else CURSORY, except_name)


def call_14_pop(s):
    if len(s.stack) == 1:
        raise Refused(3)
    s.stack.pop()


# ---- module 4: places (13.2.6.1)

def appropriate_place(s, override=None):
    """The appropriate place for inserting a node: a parent, and the child before which it lies, or None for the end."""
    target = override or s.stack[-1]                                        # 1.
    parent, before = target, None                                           # 2., otherwise
    if s.foster and target.tag in FOSTERING:
        tables = [i for i, n in enumerate(s.stack) if n.tag == TABLE_TAG]
        templates = [i for i, n in enumerate(s.stack) if n.tag == TEMPLATE]
        if templates and (not tables or templates[-1] > tables[-1]):        # 2.3
            return s.stack[templates[-1]].tie, None
        if not tables:                                                      # 2.4
            return s.stack[0], None
        table = s.stack[tables[-1]]
        if table.parent is not None:                                        # 2.5
            parent, before = table.parent, table
            if parent.tag == TEMPLATE and not s.rules.contents_around_table:
                return parent, before
        else:                                                               # 2.6, 2.7
            parent = s.stack[tables[-1] - 1]
            if parent.tag == TEMPLATE and not s.rules.contents_below_table:
                return parent, None
    if parent.tag == TEMPLATE:                                              # 3.
        parent, before = parent.tie, None
    return parent, before                                                   # 4.


def insert_at(place, node):
    parent, before = place
    if before is None:
        append(parent, node)
    else:
        insert_before(before, node)


# ---- module 5: insertion

def call_1_element(s, space, name, flags, pairs):
    check_flag(flags, 3)
    push, mark = flags % 2, flags // 2
    check_tag(space, name, mark)
    if (space, name) == ROOT:
        raise Refused(2)
    check_pairs(pairs)
    s.need(nodes=2 if (space, name) == TEMPLATE else 1, places=push, pairs=len(pairs))
    place = appropriate_place(s)
    node = s.new_element(space, name, mark, pairs)
    insert_at(place, node)
    if push:
        s.stack.append(node)


def call_2_text(s, number):
    """13.2.6.1, "insert a character": joined to a text node directly before the place."""
    parent, before = place = appropriate_place(s)
    at = len(parent.children) if before is None else parent.children.index(before)
    last = parent.children[at - 1] if at else None
    if last is not None and last.kind == TEXT:
        s.need(pieces=1)
        s.add_piece(last, number)
    else:
        s.need(nodes=1, pieces=1)
        insert_at(place, s.new_text(number))


def call_3_comment(s, where, number):
    check_flag(where, 2)
    s.need(nodes=1)
    place = (appropriate_place(s), (s.stack[0], None), (s.nodes[0], None))[where]
    insert_at(place, s.new_comment(number))


def call_15_foster(s, value):
    check_flag(value)
    s.foster = value


def call_18_head(s, value):
    check_flag(value)
    s.head = value


# ---- module 6: the list of active formatting elements (13.2.4.3)

def after_last_marker(s):
    """The places in the list from the last marker on, without it, in order."""
    markers = [i for i, entry in enumerate(s.list) if entry is None]
    return range(markers[-1] + 1 if markers else 0, len(s.list))


def call_5_marker(s):
    if len(s.list) >= s.room[1]:
        raise Refused(6)
    s.list.append(None)


def call_6_clear_to_marker(s):
    """"Clear the list of active formatting elements up to the last marker"."""
    while s.list:
        if s.list.pop() is None:        # 1. to 4.
            return


def call_4_create_formatting_element(s, name, pairs):
    if name not in FORMATTING_NAMES:
        raise Refused(2)
    check_pairs(pairs)

    def equal(entry):
        have = s.attributes(entry)
        if s.rules.attributes_in_order:
            return entry.name == name and have == pairs
        return entry.name == name and sorted(have) == sorted(pairs)

    # "Push onto the list of active formatting elements", 1.: if there are already three equal ones, the earliest goes.
    same = [i for i in after_last_marker(s) if equal(s.list[i])]
    s.need(nodes=1, places=1)
    if len(s.list) - (len(same) >= 3) >= s.room[1]:
        raise Refused(6)
    s.need(pairs=len(pairs))
    if len(same) >= 3:
        del s.list[same[0]]
    place = appropriate_place(s)
    node = s.new_element(HTML, name, 0, pairs)
    insert_at(place, node)
    s.stack.append(node)
    s.list.append(node)                 # 2.


def call_7_reconstruct(s):
    """"Reconstruct the active formatting elements"."""
    def marker_or_open(entry):
        return entry is None or entry in s.stack
    if not s.list or marker_or_open(s.list[-1]):            # 1., 2.
        return
    at = len(s.list) - 1                                    # 3.
    while at > 0 and not marker_or_open(s.list[at - 1]):    # 4. to 7.
        at -= 1
    anew = len(s.list) - at
    s.need(nodes=anew, places=anew)
    for i in range(at, len(s.list)):                        # 8. to 10.
        place = appropriate_place(s)
        node = s.new_copy(s.list[i])
        insert_at(place, node)
        s.stack.append(node)
        s.list[i] = node


# ---- module 7: the adoption agency (13.2.6.4.7)

ROOM_FOR_ADOPTION = 32


class Bookmark:
    """A position in the list, kept as an entry of its own between the elements on either side."""


def adoption_agency(s, subject):
    current = s.stack[-1]
    if current.tag == (HTML, subject) and current not in s.list:            # 2.
        s.stack.pop()
        return
    for _ in range(8):                                                      # 3., 4.1, 4.2
        if not adoption_round(s, subject):
            return


def adoption_round(s, subject):
    """Steps 4.3 to 4.19. True if there may be another round."""
    # 4.3 the last entry after the last marker with that name
    entries = [s.list[i] for i in after_last_marker(s) if s.list[i].name == subject]
    if not entries:
        any_other_end_tag(s, subject)
        return False
    formatting = entries[-1]
    # 4.4
    if formatting not in s.stack:
        s.list.remove(formatting)
        return False
    # 4.5
    if not has_in_scope(s, lambda n: n is formatting, s.rules.default_scope):
        return False
    # 4.7 the topmost special element that is lower in the stack: the first one after it
    at = s.stack.index(formatting)
    blocks = [n for n in s.stack[at + 1:] if n.tag in s.rules.special]
    # 4.8
    if not blocks:
        del s.stack[at:]
        s.list.remove(formatting)
        return False
    furthest = blocks[0]
    # 4.9
    ancestor = s.stack[at - 1]
    # 4.10
    bookmark = Bookmark()
    s.list.insert(s.list.index(formatting) + 1, bookmark)
    # 4.11
    node = last = furthest
    above = s.stack[s.stack.index(furthest) - 1]
    # 4.12, 4.13
    counter = 0
    while True:
        counter += 1                                                        # 4.13.1
        node = above                                                        # 4.13.2
        if node is formatting:                                              # 4.13.3
            break
        place = s.stack.index(node)
        above = s.stack[place - 1]
        if counter > 3 and node in s.list:                                  # 4.13.4
            s.list.remove(node)
        if node not in s.list:                                              # 4.13.5
            s.stack.remove(node)
            continue
        copy = s.new_copy(node)                                             # 4.13.6
        s.list[s.list.index(node)] = copy
        s.stack[place] = copy
        node = copy
        if last is furthest:                                                # 4.13.7
            s.list.remove(bookmark)
            s.list.insert(s.list.index(node) + 1, bookmark)
        append(node, last)                                                  # 4.13.8
        last = node                                                         # 4.13.9
    # 4.14
    insert_at(appropriate_place(s, ancestor), last)
    # 4.15
    copy = s.new_copy(formatting)
    # 4.16
    move_children(furthest, copy)
    # 4.17
    append(furthest, copy)
    # 4.18
    s.list.remove(formatting)
    s.list[s.list.index(bookmark)] = copy
    # 4.19
    s.stack.remove(formatting)
    s.stack.insert(s.stack.index(furthest) + 1, copy)
    return True


def call_8_adoption(s, name):
    """The result is the number of nodes taken."""
    if name not in FORMATTING_NAMES:
        raise Refused(2)
    s.need(nodes=ROOM_FOR_ADOPTION)
    before = len(s.nodes)
    adoption_agency(s, name)
    return len(s.nodes) - before


def call_9_misnested_a(s):
    """13.2.6.4.7, start tag "a", its first paragraph."""
    found = [s.list[i] for i in after_last_marker(s) if s.list[i].name == NUMBER["a"]]
    if not found:
        return 0
    taken = call_8_adoption(s, NUMBER["a"])
    if found[-1] in s.list:
        s.list.remove(found[-1])
    if found[-1] in s.stack:
        s.stack.remove(found[-1])
    return taken


# ---- module 8: dispatch

MODES = ("initial", "before html", "before head", "in head", "in head noscript", "after head", "in body", "text", "in table",
         "in table text", "in caption", "in column group", "in table body", "in row", "in cell", "in template", "after body",
         "in frameset", "after frameset", "after after body", "after after frameset")
MODE = {name: i + 1 for i, name in enumerate(MODES)}
assert MODE["in template"] == IN_TEMPLATE


def reset_insertion_mode(s):
    """13.2.4.1, "reset the insertion mode appropriately"."""
    tag = {name: (HTML, NUMBER[name]) for name in
           "td th tr tbody thead tfoot caption colgroup table template head body frameset html".split()}
    for i in reversed(range(len(s.stack))):                                 # 2., 14., 15.
        last = i == 0                                                       # 1., 3.
        node = s.context[:2] if last and s.context is not None else s.stack[i].tag
        if node in (tag["td"], tag["th"]) and not last:                     # 4.
            return MODE["in cell"]
        if node == tag["tr"]:                                               # 5.
            return MODE["in row"]
        if node in (tag["tbody"], tag["thead"], tag["tfoot"]):              # 6.
            return MODE["in table body"]
        if node == tag["caption"]:                                          # 7.
            return MODE["in caption"]
        if node == tag["colgroup"]:                                         # 8.
            return MODE["in column group"]
        if node == tag["table"]:                                            # 9.
            return MODE["in table"]
        if node == tag["template"]:                                         # 10.
            if not s.modes:
                raise Refused(3)
            return s.modes[-1]
        if node == tag["head"] and not last:                                # 11.
            return MODE["in head"]
        if node == tag["body"]:                                             # 12.
            return MODE["in body"]
        if node == tag["frameset"]:                                         # 13.
            return MODE["in frameset"]
        if node == tag["html"]:                                             # 14.
            return MODE["after head"] if s.head else MODE["before head"]
    return MODE["in body"]                                                  # 15.


START_TAG, END_TAG, CHARACTERS, NULL, COMMENT_TOKEN, END_OF_FILE = range(6)


def is_foreign(s, kind, name):
    """13.2.6, the tree construction dispatcher: 0 where the insertion mode's rules serve, 1 in foreign content."""
    check_flag(kind, 5)
    if kind in (START_TAG, END_TAG):
        check_name(name)
    elif name:
        raise Refused(2)
    # the adjusted current node
    if len(s.stack) == 1 and s.context is not None:
        space, tag, mark = s.context[0], s.context[:2], s.context[2]
    else:
        space, tag, mark = s.stack[-1].space, s.stack[-1].tag, s.stack[-1].mark
    characters = kind in (CHARACTERS, NULL)
    if space == HTML:
        return 0
    if tag in MATHML_TEXT_POINTS:
        if kind == START_TAG and name not in (NUMBER["mglyph"], NUMBER["malignmark"]) or characters:
            return 0
    if tag == ANNOTATION and kind == START_TAG and name == NUMBER["svg"]:
        return 0
    html_point = tag in SVG_HTML_POINTS or tag == ANNOTATION and mark
    if html_point and (kind == START_TAG or characters):
        return 0
    return 0 if kind == END_OF_FILE else 1


def body_elem(s):
    """The second open element, if it is an HTML body."""
    if len(s.stack) > 1 and s.stack[1].tag == (HTML, NUMBER["body"]):
        return s.stack[1].number
    return 0


RCDATA = [NUMBER[n] for n in ("title", "textarea")]
RAWTEXT = [NUMBER[n] for n in ("style", "xmp", "iframe", "noembed", "noframes")]


def tokenizer_state_for_context_elem(s, scripting):
    """13.4, the fragment algorithm's step on the tokenizer's state."""
    check_flag(scripting)
    if s.context is None:
        raise Refused(3)
    space, name, _ = s.context
    if space != HTML:
        return 0
    if name in RCDATA:
        return 1
    if name in RAWTEXT or name == NUMBER["noscript"] and scripting:
        return 2
    if name == NUMBER["script"]:
        return 3
    return 4 if name == NUMBER["plaintext"] else 0


def call_16_push_mode(s, mode):
    if not 1 <= mode <= 21:
        raise Refused(2)
    if len(s.modes) >= s.room[2]:
        raise Refused(6)
    s.modes.append(mode)


def call_17_pop_mode(s):
    if not s.modes:
        raise Refused(3)
    s.modes.pop()
