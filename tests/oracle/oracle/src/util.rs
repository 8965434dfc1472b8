// html5ever's own file.
#[path = "../html5ever/src/util/str.rs"]
pub(crate) mod str;
