// A stand-in for markup5ever's names and its interface between tree builder and tree.
use crate::tendril::StrTendril;
use std::borrow::Cow;
use std::fmt;

pub use self::NodeOrText::{AppendNode, AppendText};
pub use self::QuirksMode::{LimitedQuirks, NoQuirks, Quirks};
pub use self::tree_builder::create_element;

#[derive(Copy, Clone, Debug, PartialEq, Eq, PartialOrd, Ord)]
pub struct LocalName(pub &'static str);

#[derive(Copy, Clone, Debug, PartialEq, Eq, PartialOrd, Ord)]
pub struct Namespace(pub &'static str);

#[derive(Copy, Clone, Debug, PartialEq, Eq, PartialOrd, Ord)]
pub struct Prefix(pub &'static str);

impl fmt::Display for LocalName {
    fn fmt(&self, f: &mut fmt::Formatter) -> fmt::Result {
        f.write_str(self.0)
    }
}

#[derive(Copy, Clone, Debug, PartialEq, Eq)]
pub struct ExpandedName<'a> {
    pub ns: &'a Namespace,
    pub local: &'a LocalName,
}

#[derive(Clone, Debug, PartialEq, Eq, PartialOrd, Ord)]
pub struct QualName {
    pub prefix: Option<Prefix>,
    pub ns: Namespace,
    pub local: LocalName,
}

impl QualName {
    pub fn new(prefix: Option<Prefix>, ns: Namespace, local: LocalName) -> QualName {
        QualName { prefix, ns, local }
    }

    pub fn expanded(&self) -> ExpandedName<'_> {
        ExpandedName { ns: &self.ns, local: &self.local }
    }
}

pub trait ElemName: fmt::Debug {
    fn ns(&self) -> &Namespace;
    fn local_name(&self) -> &LocalName;
    fn expanded(&self) -> ExpandedName<'_> {
        ExpandedName { ns: self.ns(), local: self.local_name() }
    }
}

impl ElemName for QualName {
    fn ns(&self) -> &Namespace {
        &self.ns
    }
    fn local_name(&self) -> &LocalName {
        &self.local
    }
}

#[derive(Clone, Debug, PartialEq, Eq, PartialOrd, Ord)]
pub struct Attribute {
    pub name: QualName,
    pub value: StrTendril,
}

#[derive(Copy, Clone, Debug, PartialEq, Eq)]
pub enum QuirksMode {
    Quirks,
    LimitedQuirks,
    NoQuirks,
}

pub enum NodeOrText<Handle> {
    AppendNode(Handle),
    AppendText(StrTendril),
}

#[derive(Default)]
pub struct ElementFlags {
    pub template: bool,
    pub mathml_annotation_xml_integration_point: bool,
    pub had_duplicate_attributes: bool,
}

pub trait Tracer {
    type Handle;
    fn trace_handle(&self, node: &Self::Handle);
}

pub trait TreeSink {
    type Handle: Clone;
    type ElemName<'a>: ElemName
    where
        Self: 'a;

    fn parse_error(&self, msg: Cow<'static, str>);
    fn get_document(&self) -> Self::Handle;
    fn elem_name<'a>(&'a self, target: &'a Self::Handle) -> Self::ElemName<'a>;
    fn create_element(&self, name: QualName, attrs: Vec<Attribute>, flags: ElementFlags) -> Self::Handle;
    fn create_comment(&self, text: StrTendril) -> Self::Handle;
    fn append(&self, parent: &Self::Handle, child: NodeOrText<Self::Handle>);
    fn append_based_on_parent_node(&self, element: &Self::Handle, prev_element: &Self::Handle, child: NodeOrText<Self::Handle>);
    fn append_before_sibling(&self, sibling: &Self::Handle, new_node: NodeOrText<Self::Handle>);
    fn append_doctype_to_document(&self, name: StrTendril, public_id: StrTendril, system_id: StrTendril);
    fn get_template_contents(&self, target: &Self::Handle) -> Self::Handle;
    fn same_node(&self, x: &Self::Handle, y: &Self::Handle) -> bool;
    fn set_quirks_mode(&self, mode: QuirksMode);
    fn remove_from_parent(&self, target: &Self::Handle);
    fn reparent_children(&self, node: &Self::Handle, new_parent: &Self::Handle);
    fn is_mathml_annotation_xml_integration_point(&self, handle: &Self::Handle) -> bool;

    fn pop(&self, _node: &Self::Handle) {}
    fn associate_with_form(&self, _target: &Self::Handle, _form: &Self::Handle, _nodes: (&Self::Handle, Option<&Self::Handle>)) {}
    fn set_current_line(&self, _line: u64) {}
    fn allow_declarative_shadow_roots(&self, _parent: &Self::Handle) -> bool {
        false
    }
    fn attach_declarative_shadow(&self, _location: &Self::Handle, _template: &Self::Handle, _attrs: &[Attribute]) -> bool {
        false
    }
}

pub mod tree_builder {
    use super::{Attribute, ElementFlags, QualName, TreeSink};

    pub fn create_element<Sink: TreeSink>(sink: &Sink, name: QualName, attrs: Vec<Attribute>) -> Sink::Handle {
        create_element_with_flags(sink, name, attrs, false)
    }

    // markup5ever also reads `encoding` here to mark a MathML annotation-xml. Document 01 has the mark as an argument of its
    // own and attribute values as numbers, so the driver sets it.
    pub fn create_element_with_flags<Sink: TreeSink>(
        sink: &Sink,
        name: QualName,
        attrs: Vec<Attribute>,
        had_duplicate_attributes: bool,
    ) -> Sink::Handle {
        let template = name.expanded() == crate::expanded_name!(html "template");
        let flags = ElementFlags { template, had_duplicate_attributes, ..Default::default() };
        sink.create_element(name, attrs, flags)
    }
}
