// Not html5ever's file of this name, but a stand-in: doctypes are no part of the comparison.
use crate::interface::{NoQuirks, QuirksMode};
use crate::tokenizer::Doctype;

pub(crate) fn doctype_error_and_quirks(_doctype: &Doctype, _iframe_srcdoc: bool) -> (bool, QuirksMode) {
    (false, NoQuirks)
}
