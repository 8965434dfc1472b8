// Not html5ever's file of this name, but the driver: as a child module of html5ever's unchanged tree builder it may set its
// fields and call its private methods. One arm a call of document 01.
//
// The Rust has no refusals. Those of document 01 that depend on numbers it never sees are made here, before it is called:
//   2  unknown namespace, name, mode, kind, flag, place; a mark on another element; `html` at 1 and 10; a name that is not
//      formatting at 4 and 8; too many attributes, or one twice
//   3  at 11, 12, 14 and 17, with the Rust's own scope tests; not at reset and at the tokenizer state, where the Rust panics
//   4  fewer than 32 free nodes at 8, and at 9 where the Rust finds an `a`
// With UNGUARDED those with 3, and that of `html` at 10, are not made: what the Rust does then is seen.
// Capacities (4 to 8 elsewhere) are looked at after it: the Rust works without limit on a copy, and what does not fit then
// is refused, and the state is the old one.
use super::*;
use crate::arena::{Arena, Tree, CONTEXT};
use crate::names::{names, space, SPACES};
use crate::records::Call;
use crate::saved::*;
use crate::UNGUARDED;
use std::sync::atomic::Ordering;

pub(crate) enum Answer {
    Done(Saved, Option<usize>),
    Refused(u16),
}

use Answer::{Done, Refused};

const MODES: [InsertionMode; 21] = [
    InsertionMode::Initial,
    InsertionMode::BeforeHtml,
    InsertionMode::BeforeHead,
    InsertionMode::InHead,
    InsertionMode::InHeadNoscript,
    InsertionMode::AfterHead,
    InsertionMode::InBody,
    InsertionMode::Text,
    InsertionMode::InTable,
    InsertionMode::InTableText,
    InsertionMode::InCaption,
    InsertionMode::InColumnGroup,
    InsertionMode::InTableBody,
    InsertionMode::InRow,
    InsertionMode::InCell,
    InsertionMode::InTemplate,
    InsertionMode::AfterBody,
    InsertionMode::InFrameset,
    InsertionMode::AfterFrameset,
    InsertionMode::AfterAfterBody,
    InsertionMode::AfterAfterFrameset,
];

fn mode_number(mode: InsertionMode) -> u16 {
    MODES.iter().position(|m| *m == mode).unwrap() as u16 + 1
}

fn tag(kind: tokenizer::TagKind, name: LocalName, attrs: Vec<Attribute>) -> Tag {
    Tag { kind, name, self_closing: false, attrs, had_duplicate_attributes: false }
}

fn attribute(pair: &[u16; 2]) -> Attribute {
    Attribute { name: QualName::new(None, ns!(), names().local(pair[0])), value: StrTendril::of_number(pair[1]) }
}

fn pairs_allowed(pairs: &[[u16; 2]]) -> bool {
    let twice = |i: usize| pairs[..i].iter().any(|p| p[0] == pairs[i][0]);
    pairs.len() <= 16 && (0..pairs.len()).all(|i| names().known(pairs[i][0]) && !twice(i))
}

fn mark_allowed(ns: u16, name: u16, mark: u16) -> bool {
    mark == 0 || (mark == 1 && ns == 1 && name == names().number_of("annotation-xml"))
}

impl<Handle, Sink> TreeBuilder<Handle, Sink>
where
    Handle: Clone,
    Sink: TreeSink<Handle = Handle>,
{
    // html5ever's rules of the insertion modes are no part of the comparison.
    pub(super) fn step(&self, _mode: InsertionMode, _token: Token) -> ProcessResult<Handle> {
        unreachable!("no tokens are processed");
    }

    pub(super) fn step_foreign(&self, _token: Token) -> ProcessResult<Handle> {
        unreachable!("no tokens are processed");
    }
}

impl TreeBuilder<usize, Arena> {
    fn load(s: &Saved, empty_start_zero: bool) -> TreeBuilder<usize, Arena> {
        let tree = Tree { nodes: s.nodes.clone(), pieces: s.pieces.clone(), pairs: s.pairs.clone(), context: s.context, empty_start_zero };
        let tb = TreeBuilder::new(Arena(RefCell::new(tree)), Default::default());
        *tb.open_elems.borrow_mut() = s.stack.iter().map(|n| *n as usize).collect();
        *tb.active_formatting.borrow_mut() = s.list.iter().map(|e| Self::entry(s, *e)).collect();
        *tb.template_modes.borrow_mut() = s.modes.iter().map(|m| MODES[*m as usize - 1]).collect();
        tb.foster_parenting.set(s.foster == 1);
        *tb.head_elem.borrow_mut() = (s.head == 1).then_some(0);
        *tb.context_elem.borrow_mut() = s.context.map(|_| CONTEXT);
        tb
    }

    // An entry's tag is that element's name and attributes.
    fn entry(s: &Saved, e: u16) -> FormatEntry<usize> {
        if e == MARKER {
            return FormatEntry::Marker;
        }
        let node = s.node(e);
        let (start, count) = (node[START] as usize, node[COUNT] as usize);
        let attrs = s.pairs[start..start + count].iter().map(attribute).collect();
        FormatEntry::Element(e as usize, tag(StartTag, names().tag_name(node[NAME], e as usize), attrs))
    }

    fn save(&self, room: [u16; 5]) -> Saved {
        let tree = self.sink.0.borrow();
        let stack: Vec<u16> = self.open_elems.borrow().iter().map(|n| *n as u16).collect();
        let list: Vec<u16> = self
            .active_formatting
            .borrow()
            .iter()
            .map(|e| match e {
                FormatEntry::Marker => MARKER,
                FormatEntry::Element(n, _) => *n as u16,
            })
            .collect();
        let modes: Vec<u16> = self.template_modes.borrow().iter().map(|m| mode_number(*m)).collect();
        Saved {
            room,
            used: [tree.nodes.len(), list.len(), modes.len(), tree.pieces.len(), tree.pairs.len()].map(|n| n as u16),
            depth: stack.len() as u16,
            foster: self.foster_parenting.get() as u16,
            head: self.head_elem.borrow().is_some() as u16,
            context: tree.context,
            stack,
            nodes: tree.nodes.clone(),
            list,
            modes,
            pieces: tree.pieces.clone(),
            pairs: tree.pairs.clone(),
        }
    }

    // What the Rust left, or the refusal for what does not fit.
    fn fitted(&self, room: [u16; 5], result: Option<usize>) -> Answer {
        let after = self.save(room);
        let over = |i: usize| after.used[i] > room[i];
        if over(0) {
            Refused(4)
        } else if after.depth as usize > STACK {
            Refused(5)
        } else if over(1) || over(2) {
            Refused(6)
        } else if over(3) {
            Refused(7)
        } else if over(4) {
            Refused(8)
        } else {
            Done(after, result)
        }
    }

    // The answer with the state after it: the old one where the call is refused.
    pub(crate) fn outcome(answer: Answer, old: &Saved) -> Option<(u16, Option<usize>, Saved)> {
        Some(match answer {
            Done(after, result) => (0, result, after),
            Refused(number) => (number, None, old.clone()),
        })
    }

    pub(crate) fn begin(room: [u16; 5], context: Option<[u16; 3]>, there: u16, empty_start_zero: bool) -> Answer {
        if there > 1 {
            return Refused(2);
        }
        if let Some([ns, name, mark]) = context {
            if ns >= SPACES || !names().known(name) || !mark_allowed(ns, name, mark) {
                return Refused(2);
            }
        }
        let mut document = [0; 14];
        document[KIND] = DOCUMENT;
        let tree = Tree { nodes: vec![document], pieces: vec![], pairs: vec![], context, empty_start_zero };
        let arena = Arena(RefCell::new(tree));
        let tb = match context {
            Some(_) => TreeBuilder::new_for_fragment(arena, CONTEXT, None, Default::default()),
            None => {
                let tb = TreeBuilder::new(arena, Default::default());
                tb.create_root(vec![]);
                tb
            },
        };
        tb.fitted(room, None)
    }

    pub(crate) fn call(s: &Saved, call: &Call, empty_start_zero: bool) -> Answer {
        let names = names();
        let tb = Self::load(s, empty_start_zero);
        let arg = |i: usize| call.args[i];
        let attrs = || call.pairs.iter().map(attribute).collect::<Vec<_>>();
        let free = s.room[0] - s.used[0];
        let guarded = !UNGUARDED.load(Ordering::Relaxed);
        let mut result = None;
        match call.number {
            1 => {
                let (ns, name, flags) = (arg(0), arg(1), arg(2));
                let root = ns == 0 && name == names.number_of("html");
                if ns >= SPACES || !names.known(name) || flags > 3 || root || !mark_allowed(ns, name, flags / 2) || !pairs_allowed(&call.pairs) {
                    return Refused(2);
                }
                let push = if flags % 2 == 1 { PushFlag::Push } else { PushFlag::NoPush };
                let elem = tb.insert_element(push, space(ns), names.local(name), attrs(), false);
                tb.sink.0.borrow_mut().put(elem, MARK, flags as usize / 2);
            },
            2 => {
                tb.append_text(StrTendril::of_number(arg(0)));
            },
            3 => {
                let number = StrTendril::of_number(arg(1));
                match arg(0) {
                    0 => tb.append_comment(number),
                    1 => tb.append_comment_to_html(number),
                    2 => tb.append_comment_to_doc(number),
                    _ => return Refused(2),
                };
            },
            4 => {
                if !names.formatting(arg(0)) || !pairs_allowed(&call.pairs) {
                    return Refused(2);
                }
                tb.create_formatting_element_for(tag(StartTag, names.local(arg(0)), attrs()));
            },
            // The Rust pushes a marker in its rules, without a method.
            5 => tb.active_formatting.borrow_mut().push(FormatEntry::Marker),
            6 => tb.clear_active_formatting_to_marker(),
            7 => tb.reconstruct_active_formatting_elements(),
            8 => {
                if !names.formatting(arg(0)) {
                    return Refused(2);
                }
                if free < 32 {
                    return Refused(4);
                }
                tb.adoption_agency(names.local(arg(0)));
                result = Some(tb.sink.0.borrow().nodes.len() - s.nodes.len());
            },
            9 => {
                let found = tb.active_formatting_end_to_marker().iter().any(|(_, n, _)| tb.html_elem_named(n, local_name!("a")));
                if found && free < 32 {
                    return Refused(4);
                }
                tb.handle_misnested_a_tags(&tag(StartTag, local_name!("a"), vec![]));
                result = Some(tb.sink.0.borrow().nodes.len() - s.nodes.len());
            },
            10 => {
                if !names.known(arg(0)) || (guarded && arg(0) == names.number_of("html")) {
                    return Refused(2);
                }
                tb.process_end_tag_in_body(tag(EndTag, names.local(arg(0)), vec![]));
            },
            11 => {
                if guarded && !tb.in_scope_named(button_scope, local_name!("p")) {
                    return Refused(3);
                }
                tb.close_p_element();
            },
            12 => {
                if guarded && !tb.in_scope(table_scope, |n| tb.elem_in(&n, td_th)) {
                    return Refused(3);
                }
                tb.close_the_cell();
            },
            13 => {
                let (kind, except) = (arg(0), arg(1));
                if kind > 1 || (except != 0 && !names.known(except)) {
                    return Refused(2);
                }
                match (kind, except) {
                    (0, 0) => tb.generate_implied_end_tags(cursory_implied_end),
                    (0, _) => tb.generate_implied_end_except(names.local(except)),
                    (_, 0) => tb.generate_implied_end_tags(thorough_implied_end),
                    // The Rust has no exception for the thorough set.
                    (_, _) => tb.generate_implied_end_tags(|p| {
                        !(*p.ns == ns!(html) && *p.local == names.local(except)) && thorough_implied_end(p)
                    }),
                }
            },
            14 => {
                if guarded && s.depth == 1 {
                    return Refused(3);
                }
                tb.pop();
            },
            15 => match arg(0) {
                0 | 1 => tb.foster_parenting.set(arg(0) == 1),
                _ => return Refused(2),
            },
            // Template modes are pushed and popped in the Rust's rules, without a method.
            16 => match arg(0) {
                1..=21 => tb.template_modes.borrow_mut().push(MODES[arg(0) as usize - 1]),
                _ => return Refused(2),
            },
            17 => {
                if tb.template_modes.borrow_mut().pop().is_none() {
                    return Refused(3);
                }
            },
            18 => match arg(0) {
                0 | 1 => *tb.head_elem.borrow_mut() = (arg(0) == 1).then_some(0),
                _ => return Refused(2),
            },
            _ => return Refused(2),
        }
        tb.fitted(s.room, result)
    }

    pub(crate) fn reset(s: &Saved) -> Answer {
        let tb = Self::load(s, false);
        let mode = tb.reset_insertion_mode();
        Done(tb.save(s.room), Some(mode_number(mode) as usize))
    }

    pub(crate) fn foreign(s: &Saved, kind: u16, name: u16) -> Answer {
        let tb = Self::load(s, false);
        let wanted = if kind < 2 { names().known(name) } else { name == 0 };
        if kind > 5 || !wanted {
            return Refused(2);
        }
        let text = StrTendril::new;
        let token = match kind {
            0 => Token::Tag(tag(StartTag, names().local(name), vec![])),
            1 => Token::Tag(tag(EndTag, names().local(name), vec![])),
            2 => Token::Characters(SplitStatus::NotSplit, text()),
            3 => Token::NullCharacter,
            4 => Token::Comment(text()),
            _ => Token::Eof,
        };
        let foreign = tb.is_foreign(&token);
        Done(tb.save(s.room), Some(foreign as usize))
    }

    pub(crate) fn body(s: &Saved) -> Answer {
        let tb = Self::load(s, false);
        let body = tb.body_elem().map_or(0, |n| *n);
        Done(tb.save(s.room), Some(body))
    }

    pub(crate) fn tokenizer_state(s: &Saved, scripting: u16) -> Answer {
        if scripting > 1 {
            return Refused(2);
        }
        let tb = Self::load(s, false);
        let state = match tb.tokenizer_state_for_context_elem(scripting == 1) {
            tok_state::Data => 0,
            tok_state::RawData(tok_state::Rcdata) => 1,
            tok_state::RawData(tok_state::Rawtext) => 2,
            tok_state::RawData(tok_state::ScriptData) => 3,
            tok_state::Plaintext => 4,
            other => panic!("{other:?}"),
        };
        Done(tb.save(s.room), Some(state))
    }
}
