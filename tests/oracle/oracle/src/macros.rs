// Stand-ins for the macros of markup5ever and log that html5ever's tree builder uses.
// Each name macro gives a tuple struct over a literal, which is an expression and a pattern at once.

#[macro_export]
macro_rules! local_name {
    ($x:tt) => {
        $crate::LocalName($x)
    };
}

#[macro_export]
macro_rules! namespace_prefix {
    ($x:tt) => {
        $crate::Prefix($x)
    };
}

#[macro_export]
macro_rules! ns {
    () => {
        $crate::Namespace("")
    };
    (html) => {
        $crate::Namespace("http://www.w3.org/1999/xhtml")
    };
    (mathml) => {
        $crate::Namespace("http://www.w3.org/1998/Math/MathML")
    };
    (svg) => {
        $crate::Namespace("http://www.w3.org/2000/svg")
    };
    (xlink) => {
        $crate::Namespace("http://www.w3.org/1999/xlink")
    };
    (xml) => {
        $crate::Namespace("http://www.w3.org/XML/1998/namespace")
    };
    (xmlns) => {
        $crate::Namespace("http://www.w3.org/2000/xmlns/")
    };
}

#[macro_export]
macro_rules! expanded_name {
    ("", $local:tt) => {
        $crate::ExpandedName { ns: &$crate::ns!(), local: &$crate::local_name!($local) }
    };
    ($ns:ident $local:tt) => {
        $crate::ExpandedName { ns: &$crate::ns!($ns), local: &$crate::local_name!($local) }
    };
}

#[macro_export]
macro_rules! debug {
    ($($x:tt)*) => {};
}

#[macro_export]
macro_rules! warn {
    ($($x:tt)*) => {};
}

#[macro_export]
macro_rules! log_enabled {
    ($x:expr) => {{
        let _ = $x;
        false
    }};
}
