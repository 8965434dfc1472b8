// The tree that the Rust writes to: a plain arena that numbers nodes, pieces and pairs as document 01 says, without any limit.
use crate::interface::{AppendNode, AppendText, Attribute, ElementFlags, NodeOrText, QualName, QuirksMode, TreeSink};
use crate::names::{names, space, space_number};
use crate::saved::*;
use crate::tendril::StrTendril;
use std::borrow::Cow;
use std::cell::RefCell;

// The handle of the fragment context, which is no node of the tree.
pub const CONTEXT: usize = usize::MAX;

pub struct Tree {
    pub nodes: Vec<Node>,
    pub pieces: Vec<[u16; 2]>,
    pub pairs: Vec<[u16; 2]>,
    pub context: Option<[u16; 3]>,
    // An element without attributes has as START the pairs used when it was made; or else 0.
    pub empty_start_zero: bool,
}

impl Tree {
    pub fn get(&self, n: usize, f: usize) -> usize {
        self.nodes[n - 1][f] as usize
    }

    pub fn put(&mut self, n: usize, f: usize, x: usize) {
        self.nodes[n - 1][f] = x as u16;
    }

    fn make(&mut self, kind: u16) -> usize {
        let mut node = [0; 14];
        node[KIND] = kind;
        self.nodes.push(node);
        self.nodes.len()
    }

    fn make_piece(&mut self, text: &StrTendril) -> usize {
        self.pieces.push([text.number(), 0]);
        self.pieces.len()
    }

    // c goes under p, before s, or last if s is 0.
    fn link(&mut self, p: usize, s: usize, c: usize) {
        assert!(self.get(c, PARENT) == 0, "it has a parent");
        let before = if s == 0 { self.get(p, LAST) } else { self.get(s, PREV) };
        self.put(c, PARENT, p);
        self.put(c, PREV, before);
        self.put(c, NEXT, s);
        if before == 0 { self.put(p, FIRST, c) } else { self.put(before, NEXT, c) }
        if s == 0 { self.put(p, LAST, c) } else { self.put(s, PREV, c) }
    }

    fn unlink(&mut self, c: usize) {
        let (p, before, after) = (self.get(c, PARENT), self.get(c, PREV), self.get(c, NEXT));
        if p == 0 {
            return;
        }
        if before == 0 { self.put(p, FIRST, after) } else { self.put(before, NEXT, after) }
        if after == 0 { self.put(p, LAST, before) } else { self.put(after, PREV, before) }
        for f in [PARENT, PREV, NEXT] {
            self.put(c, f, 0);
        }
    }

    fn insert(&mut self, p: usize, s: usize, child: NodeOrText<usize>) {
        match child {
            AppendNode(c) => {
                self.unlink(c);
                self.link(p, s, c);
            },
            AppendText(text) => {
                let before = if s == 0 { self.get(p, LAST) } else { self.get(s, PREV) };
                let i = self.make_piece(&text);
                if before != 0 && self.get(before, KIND) == TEXT as usize {
                    let end = self.get(before, END);
                    self.pieces[end - 1][1] = i as u16;
                    self.put(before, END, i);
                } else {
                    let n = self.make(TEXT);
                    self.put(n, PIECE, i);
                    self.put(n, END, i);
                    self.link(p, s, n);
                }
            },
        }
    }
}

pub struct Arena(pub RefCell<Tree>);

impl TreeSink for Arena {
    type Handle = usize;
    type ElemName<'a> = QualName;

    fn parse_error(&self, _msg: Cow<'static, str>) {}

    fn get_document(&self) -> usize {
        1
    }

    fn elem_name(&self, target: &usize) -> QualName {
        let tree = self.0.borrow();
        let (ns, name) = if *target == CONTEXT {
            let context = tree.context.expect("a context");
            (context[0], context[1])
        } else {
            let node = &tree.nodes[*target - 1];
            assert!(node[KIND] == ELEMENT, "the name of what is no element");
            (node[SPACE], node[NAME])
        };
        QualName::new(None, space(ns), names().local(name))
    }

    fn create_element(&self, name: QualName, attrs: Vec<Attribute>, flags: ElementFlags) -> usize {
        let mut tree = self.0.borrow_mut();
        let (start, count) = match names().copied_from(name.local) {
            Some(from) => {
                let (start, count) = (tree.get(from, START), tree.get(from, COUNT));
                assert!(attrs.len() == count, "a copy has the attributes of its tag");
                (start, count)
            },
            None => {
                let start = if attrs.is_empty() && tree.empty_start_zero { 0 } else { tree.pairs.len() };
                for a in &attrs {
                    let pair = [names().number(a.name.local), a.value.number()];
                    tree.pairs.push(pair);
                }
                (start, attrs.len())
            },
        };
        let n = tree.make(ELEMENT);
        tree.put(n, SPACE, space_number(&name.ns) as usize);
        tree.put(n, NAME, names().number(name.local) as usize);
        tree.put(n, START, start);
        tree.put(n, COUNT, count);
        if flags.template {
            let c = tree.make(CONTENTS);
            tree.put(n, TIE, c);
            tree.put(c, TIE, n);
        }
        n
    }

    fn create_comment(&self, text: StrTendril) -> usize {
        let mut tree = self.0.borrow_mut();
        let n = tree.make(COMMENT);
        tree.put(n, NAME, text.number() as usize);
        n
    }

    fn append(&self, parent: &usize, child: NodeOrText<usize>) {
        self.0.borrow_mut().insert(*parent, 0, child);
    }

    // markup5ever leaves this choice to the sink: before the table if it has a parent, else at the end of the element below it.
    fn append_based_on_parent_node(&self, element: &usize, prev_element: &usize, child: NodeOrText<usize>) {
        let parent = self.0.borrow().get(*element, PARENT);
        if parent == 0 {
            self.append(prev_element, child);
        } else {
            self.append_before_sibling(element, child);
        }
    }

    fn append_before_sibling(&self, sibling: &usize, new_node: NodeOrText<usize>) {
        let mut tree = self.0.borrow_mut();
        let parent = tree.get(*sibling, PARENT);
        assert!(parent != 0, "a sibling without a parent");
        tree.insert(parent, *sibling, new_node);
    }

    fn append_doctype_to_document(&self, _name: StrTendril, _public_id: StrTendril, _system_id: StrTendril) {
        unreachable!("doctypes are no part of the comparison");
    }

    fn get_template_contents(&self, target: &usize) -> usize {
        let contents = self.0.borrow().get(*target, TIE);
        assert!(contents != 0, "contents of what is no template");
        contents
    }

    fn same_node(&self, x: &usize, y: &usize) -> bool {
        x == y
    }

    fn set_quirks_mode(&self, _mode: QuirksMode) {}

    fn remove_from_parent(&self, target: &usize) {
        self.0.borrow_mut().unlink(*target);
    }

    fn reparent_children(&self, node: &usize, new_parent: &usize) {
        let mut tree = self.0.borrow_mut();
        loop {
            let c = tree.get(*node, FIRST);
            if c == 0 {
                break;
            }
            tree.unlink(c);
            tree.link(*new_parent, 0, c);
        }
    }

    fn is_mathml_annotation_xml_integration_point(&self, handle: &usize) -> bool {
        let tree = self.0.borrow();
        if *handle == CONTEXT {
            tree.context.is_some_and(|c| c[2] == 1)
        } else {
            tree.get(*handle, MARK) == 1
        }
    }
}
