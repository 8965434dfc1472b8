#!/usr/bin/env python3
"""Writes the files of crates/names that hold numbers of names, and the copy of names.txt beside the oracle.

    python3 tools/names.py            write them
    python3 tools/names.py --check    write nothing, name each file that is stale; exit 1 where there is one

names.txt is the list of names, one a line, in ascending order of their bytes: name n stands on line n.
crates/names/specs/Sets.antt says which names each set has. Both are written by hand.
tests/oracle/names.txt is a copy of names.txt: the oracle and the model read that.
"""
import re
import sys
from pathlib import Path

ROOT = Path(__file__).resolve().parent.parent
CRATE = ROOT / 'crates' / 'names'
COPY = ROOT / 'tests' / 'oracle' / 'names.txt'
BITS = 64
NAMESPACES = ('html', 'math', 'svg')
WIDTH = 120
# As the formatter lays out an array: filled lines where each item is short, else one item a line.
ROW = 99
SHORT = 10
# The most constants that one function of `tag` lists.
PART = 30

# Names that rules speak of and that no set has.
FURTHER = '''
    color dialog encoding face image malignmark math mglyph ruby sarcasm selectedcontent size span sub sup svg type var
'''.split()

WRITTEN = 'Written by tools/names.py from names.txt'
WITH_SETS = WRITTEN + ' and specs/Sets.antt'


def read_names(text):
    """The names in order, or an error where they do not ascend."""
    names = text.split('\n')[:-1]
    for earlier, later in zip(names, names[1:]):
        if not earlier.encode() < later.encode():
            sys.exit(f'names.txt: {later} does not stand after {earlier}')
    return names


def spelled(names):
    """Each name by its word in antt, or an error where two names have one word."""
    found = {}
    for name in names:
        if found.setdefault(word(name), name) != name:
            sys.exit(f'names.txt: {found[word(name)]} and {name} are one word')
    return found


def members(expression, lists, called):
    """The names of an antt expression of lists: both `∷` and `++` put what follows after what stands before."""
    found = []
    for item in re.findall(r'tag\.\w+|\w+', expression):
        found += [called.get(item[4:], item[4:])] if item.startswith('tag.') else lists[item]
    return found


def read_sets(text, called):
    """The lists by their names in antt, and for each set, by its name, the members in each namespace."""
    lists, sets = {}, {}
    for name, body in re.findall(r'(?m)^(\w+) =((?: .*)?(?:\n +.*)*)', text):
        fields = dict(re.findall(r'(\w+) = ([^;}]*)', body)) if 'record' in body else None
        if fields is not None:
            sets[name] = [members(fields[space], lists, called) for space in NAMESPACES]
        elif re.search(r'tag\.\S+ ∷', body):
            lists[name] = members(body, lists, called)
    return lists, sets


def even_parts(items, most):
    """As few parts as can be, none much shorter than the others."""
    count = -(-len(items) // most)
    each = -(-len(items) // count)
    return [items[i:i + each] for i in range(0, len(items), each)]


class Table:
    """The names by number, and what is counted of them."""

    def __init__(self, names, lists, sets):
        self.names = names
        self.lists = lists
        self.sets = sets
        self.number = {name: n for n, name in enumerate(names, 1)}
        named = FURTHER + [name for group in lists.values() for name in group]
        for name in named:
            if name not in self.number:
                sys.exit(f'names.txt: no {name}')
        self.tags = sorted(set(named), key=self.number.__getitem__)
        self.parts = even_parts(self.tags, PART)
        self.limit = len(names) + 1
        self.each = -(-self.limit // BITS)
        self.span = self.each * BITS

    def starts(self):
        """Where each row starts in the flat bytes: none's, each name's, and the end."""
        found = [0, 0]
        for name in self.names:
            found.append(found[-1] + len(name))
        return found

    def words(self, spaces):
        """A set's bits, namespace by namespace."""
        found = [0] * (self.each * len(spaces))
        for space, group in enumerate(spaces):
            for name in group:
                row, bit = divmod(self.number[name], BITS)
                found[space * self.each + row] |= 1 << bit
        return found


def constant(name):
    """annotation-xml, foreignObject, MathTextPoints: as a constant is written in code."""
    return re.sub(r'(?<=[a-z])(?=[A-Z])', '_', name).replace('-', '_').upper()


def word(name):
    """The same as a word of antt: annotation_xml, foreign_object, math_text_points."""
    return constant(name).lower()


def constructor(name):
    return 'the_' + word(name)


def filled(items, indent=4, width=WIDTH):
    """Items on lines, as many on each as fit."""
    start = ' ' * (indent - 1)
    lines, line = [], start
    for item in items:
        if len(line) + 1 + len(item) > width:
            lines.append(line)
            line = start
        line += ' ' + item
    return '\n'.join(lines + [line])


def antt_list(items):
    return filled([f'{item} ∷' for item in items] + ['[]'])


def part_names(table):
    return [f'tags{n}' for n in range(1, len(table.parts) + 1)]


def one_a_line(items, indent):
    return '\n'.join(' ' * indent + item for item in items)


def array(items, indent):
    """The items of an array in code."""
    rows = [item + ',' for item in items]
    return filled(rows, indent, ROW) if all(len(item) <= SHORT for item in items) else one_a_line(rows, indent)


def table_rt(table):
    starts = table.starts()
    return f'''// {WRITTEN}.
// The bytes of all names, one after the other, and where each begins: name n is the bytes from STARTS[n] up to STARTS[n + 1].
pub const LIMIT: u16 = {table.limit};

pub const BYTES: [u8; {starts[-1]}] = *b"\\
{one_a_line((name + chr(92) for name in table.names[:-1]), 4)}
    {table.names[-1]}";

pub const STARTS: [u16; {len(starts)}] = [
{array([str(start) for start in starts], 4)}
];
'''


def tag_rt(table):
    constants = '\n\n'.join(f'pub const {constant(tag)}: u16 = {table.number[tag]};' for tag in table.tags)
    functions = '\n\n'.join(
        f'''pub fn all_{n}() -> [u16; {len(part)}]
    ensures {{ result ≡ tags{n} }}
{{
    [
{array([constant(tag) for tag in part], 8)}
    ]
}}'''
        for n, part in enumerate(table.parts, 1))
    return f'''// {WITH_SETS}.
// The numbers of names that rules speak of, by name. specs/Tag.antt has the same, and proofs/Tags.antt ties each to its bytes.
ghost use Rattle.std.specs.Prelude.{{◌≡◌}};
ghost use Rattle.names.specs.Tags.{{{', '.join(part_names(table))}}};

{constants}

// All of them, part by part, so that the check holds each to its definition.
{functions}
'''


def words_rt(table):
    size = table.each * len(NAMESPACES)
    arrays = '\n\n'.join(
        f'''pub const {constant(name)}: [u64; {size}] = [
{array([hex(bits) for bits in table.words(spaces)], 4)}
];'''
        for name, spaces in table.sets.items())
    return f'''// {WITH_SETS}.
// The sets of names: a bit for each name, {BITS} to a word, first the words of the HTML names, then MathML's, then SVG's.
// The words for each namespace.
pub const EACH: usize = {table.each};

// The names that they have a bit for.
pub const SPAN: u16 = {table.span};

// The words of a set.
pub const ALL: usize = {size};

{arrays}
'''


def table_antt(table):
    rows = one_a_line((f'text "{name}" ∷' for name in table.names), 4)
    return f'''-- {WRITTEN}.
-- The table of names: every element and attribute name of document 01 and of the standard's section 13.2, as bytes, in ascending order.
-- Assumes nothing.
use Rattle.std.specs.Prelude.{{ℕ, List, [], ◌∷◌}}
use Rattle.names.specs.Text.{{text}}

unfoldable pub names : List (List ℕ)
names =
{rows}
    []

-- the first number past the table
abbrev pub limit : ℕ
limit = {table.limit}

-- the bytes of all names together
abbrev pub total : ℕ
total = {table.starts()[-1]}

-- a set as words of {BITS} bits: the words for each namespace, and the names that they have a bit for
abbrev pub each : ℕ
each = {table.each}

abbrev pub span : ℕ
span = {table.span}
'''


def tag_antt(table):
    tags = '\n\n'.join(f'abbrev pub {word(tag)} : ℕ\n{word(tag)} = {table.number[tag]}' for tag in table.tags)
    return f'''-- {WITH_SETS}.
-- The numbers of names that rules speak of, by name: `use Rattle.names.specs.Tag as tag` and then `tag.template`.
-- `proofs/Tags.antt` ties each to its bytes in the table.
-- Assumes nothing.
use Rattle.std.specs.Prelude.{{ℕ}}

{tags}
'''


def tags_antt(table):
    parts = '\n\n'.join(
        f'''abbrev pub {name} : List ℕ
{name} =
{antt_list(f'tag.{word(tag)}' for tag in part)}'''
        for name, part in zip(part_names(table), table.parts))
    return f'''-- {WITH_SETS}.
-- All constants of `Tag`, in the table's order, in parts of {PART} at most.
-- Assumes nothing.
use Rattle.std.specs.Prelude.{{ℕ, List, [], ◌∷◌, ◌++◌}}
use Rattle.names.specs.Tag as tag

{parts}

abbrev pub all_tags : List ℕ
all_tags = {' ++ '.join(part_names(table))}
'''


def tied_antt(table):
    called = one_a_line((f'"{tag}" ∷' for tag in table.tags), 4)
    return f'''-- {WITH_SETS}.
-- Each constant of `specs/Tag.antt` is the number of the name that it is called by: one computed test over the list of both.
-- Assumes nothing.
use Rattle.std.proofs.Common.{{◌≡◌, refl, List, [], ◌∷◌, map}}
use Prim.Native.String.{{String}}
use Rattle.names.specs.Text.{{text}}
use Rattle.names.specs.Table.{{names}}
use Rattle.names.specs.Numbers.{{number_of}}
use Rattle.names.specs.Tags.{{all_tags}}

abbrev pub called : List String
called =
{called}
    []

pub tied : map (λ (s : String). number_of (text s)) called ≡ all_tags
unfolding names text
tied = refl
'''


def set_words_antt(table):
    lists = list(table.lists)
    sets = {constructor(name): table.words(spaces) for name, spaces in table.sets.items()}
    words = '\n'.join(f'words_of {name} =\n{antt_list(map(hex, row))}' for name, row in sets.items())
    agrees = '\n'.join(f'agrees {name} = tt' for name in sets)
    listed = '\n'.join(f'listed {name} = tt' for name in sets)
    return f'''-- {WITH_SETS}.
-- The words of each set, and two tests, each computed once for each set: the words agree with the members at every name
-- that they have a bit for, and the members are names of the table.
-- Assumes nothing.
use Rattle.std.proofs.Common.{{List, [], ◌∷◌, ℕ, T}}
use Rattle.names.specs.Numbers.{{in_table}}
use Rattle.names.specs.Sets.{{Names, OneOf}}
use Rattle.names.specs.Sets.{{{', '.join(lists)}}}
use Rattle.names.specs.Sets.{{{', '.join(sets)}}}
use Rattle.names.proofs.Agree.{{agree}}
use Rattle.names.proofs.Members.{{everywhere}}

-- the words, as `src/words.rt` has them
abbrev pub words_of : {{s : Names}} → OneOf s → List ℕ
{words}

pub agrees : {{s : Names}} (t : OneOf s) → T (agree (words_of t) s)
unfolding agree {' '.join(lists)}
{agrees}

pub listed : {{s : Names}} → OneOf s → T (everywhere in_table s)
unfolding everywhere in_table {' '.join(lists)}
{listed}
'''


FILES = {
    'src/table.rt': table_rt,
    'src/tag.rt': tag_rt,
    'src/words.rt': words_rt,
    'specs/Table.antt': table_antt,
    'specs/Tag.antt': tag_antt,
    'specs/Tags.antt': tags_antt,
    'proofs/Tags.antt': tied_antt,
    'proofs/SetWords.antt': set_words_antt,
}


def main(arguments):
    if arguments not in ([], ['--check']):
        sys.exit(__doc__)
    listed = (ROOT / 'names.txt').read_text()
    names = read_names(listed)
    table = Table(names, *read_sets((CRATE / 'specs' / 'Sets.antt').read_text(), spelled(names)))
    texts = {CRATE / path: render(table) for path, render in FILES.items()} | {COPY: listed}
    stale = []
    for file, text in texts.items():
        if file.exists() and file.read_text() == text:
            continue
        stale.append(file)
        if not arguments:
            file.write_text(text)
    for file in stale:
        print(f'{file.relative_to(ROOT)}:', 'stale' if arguments else 'written')
    return 1 if stale and arguments else 0


if __name__ == '__main__':
    sys.exit(main(sys.argv[1:]))
