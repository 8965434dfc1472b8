// The dump of document 01.
use crate::names::{names, FIRST_HOST};
use crate::saved::*;

fn name(node: &Node) -> String {
    let n = node[NAME];
    let text = if n < FIRST_HOST { names().local(n).0.to_string() } else { format!("?{n}") };
    let prefix = ["", "math ", "svg "][node[SPACE] as usize];
    format!("<{prefix}{text}>")
}

fn line(out: &mut String, level: usize, text: &str) {
    out.push_str("| ");
    out.push_str(&"  ".repeat(level));
    out.push_str(text);
    out.push('\n');
}

pub fn dump(s: &Saved) -> String {
    let mut out = String::new();
    // Nodes still to write, the next one last, each with its level.
    let mut rest: Vec<(u16, usize)> = Vec::new();
    let children = |n: u16, level: usize| {
        let mut all = Vec::new();
        let mut c = s.node(n)[LAST];
        while c != 0 {
            all.push((c, level));
            c = s.node(c)[PREV];
        }
        all
    };
    rest.extend(children(1, 0));
    while let Some((n, level)) = rest.pop() {
        let node = s.node(n);
        match node[KIND] {
            ELEMENT => {
                line(&mut out, level, &name(node));
                let (start, count) = (node[START] as usize, node[COUNT] as usize);
                for p in &s.pairs[start..start + count] {
                    line(&mut out, level + 1, &format!("@{}=#{}", p[0], p[1]));
                }
                rest.extend(children(n, level + 1));
                if node[TIE] != 0 {
                    rest.push((node[TIE], level + 1));
                }
            },
            CONTENTS => {
                line(&mut out, level, "content");
                rest.extend(children(n, level + 1));
            },
            TEXT => {
                let (mut i, mut parts) = (node[PIECE], Vec::new());
                while i != 0 {
                    let piece = s.pieces[i as usize - 1];
                    parts.push(format!("#{}", piece[0]));
                    i = piece[1];
                }
                line(&mut out, level, &parts.join(" "));
            },
            _ => line(&mut out, level, &format!("<!-- #{} -->", node[NAME])),
        }
    }
    out
}
