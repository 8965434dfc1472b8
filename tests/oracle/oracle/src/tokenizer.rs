// A stand-in for html5ever's tokenizer interface; only its states are html5ever's own file.
use crate::interface::{Attribute, LocalName};
use crate::tendril::StrTendril;
use std::borrow::Cow;

pub use self::TagKind::{EndTag, StartTag};
pub use self::Token::{CharacterTokens, CommentToken, DoctypeToken, EOFToken, NullCharacterToken, ParseError, TagToken};

#[path = "../html5ever/src/tokenizer/states.rs"]
pub mod states;

#[derive(Clone, Debug, PartialEq, Eq)]
pub struct Doctype {
    pub name: Option<StrTendril>,
    pub public_id: Option<StrTendril>,
    pub system_id: Option<StrTendril>,
    pub force_quirks: bool,
}

#[derive(Copy, Clone, Debug, PartialEq, Eq)]
pub enum TagKind {
    StartTag,
    EndTag,
}

#[derive(Clone, Debug, PartialEq, Eq)]
pub struct Tag {
    pub kind: TagKind,
    pub name: LocalName,
    pub self_closing: bool,
    pub attrs: Vec<Attribute>,
    pub had_duplicate_attributes: bool,
}

impl Tag {
    // As html5ever's: kind, name and attributes, these in any order.
    pub fn equiv_modulo_attr_order(&self, other: &Tag) -> bool {
        let sorted = |tag: &Tag| {
            let mut attrs = tag.attrs.clone();
            attrs.sort();
            attrs
        };
        self.kind == other.kind && self.name == other.name && sorted(self) == sorted(other)
    }
}

#[derive(Clone, Debug, PartialEq, Eq)]
pub enum Token {
    DoctypeToken(Doctype),
    TagToken(Tag),
    CommentToken(StrTendril),
    CharacterTokens(StrTendril),
    NullCharacterToken,
    EOFToken,
    ParseError(Cow<'static, str>),
}

pub enum TokenSinkResult<Handle> {
    Continue,
    Script(Handle),
    Plaintext,
    RawData(states::RawKind),
    EncodingIndicator(StrTendril),
}

pub trait TokenSink {
    type Handle;
    fn process_token(&self, token: Token, line_number: u64) -> TokenSinkResult<Self::Handle>;
    fn end(&self) {}
    fn adjusted_current_node_present_but_not_in_html_namespace(&self) -> bool {
        false
    }
}
