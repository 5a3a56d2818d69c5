// Parks as texts.
use crate::park::{self, Form, Park};

fn spell(f: &Form) -> String {
    let two = |name: &str, a: &Form, b: &Form| format!("({name} {} {})", spell(a), spell(b));
    match f {
        Form::Compare(o, a, b) => two(["le", "lt", "eq", "ne", "ge", "gt"][*o as usize], a, b),
        Form::Not(a) => format!("(not {})", spell(a)),
        Form::Connect(o, a, b) => two(["and", "or", "xor", "implies"][*o as usize], a, b),
        Form::Quantify(q, c, b) => two(["forall", "exists"][*q as usize], c, b),
        Form::Kind(v, t) => format!("(kind {v} {t})"),
        Form::Num(n) => format!("(num {n})"),
        Form::Cell(v, k) => format!("(cell {v} {k})"),
        Form::Size(c) => format!("(size {})", spell(c)),
        Form::Sum(c, k) => format!("(sum {} {k})", spell(c)),
        Form::Combine(o, a, b) => two(["add", "sub"][*o as usize], a, b),
        Form::Role(v, r) => format!("(role {v} {r})"),
        Form::All(t) => format!("(all {t})"),
        Form::Select(c, b) => two("select", c, b),
    }
}

pub fn text(p: &Park) -> String {
    let mut out = String::new();
    for (i, (parent, cells)) in p.types.iter().enumerate() {
        let parent = parent.map_or("-".to_string(), |x| x.to_string());
        out += &format!("(type {i} {parent} {cells})\n");
    }
    for (kind, cell) in &p.floors {
        out += &format!("(floor {kind} {cell})\n");
    }
    for (i, (s, d)) in p.relationships.iter().enumerate() {
        out += &format!("(rel {i} {s} {d})\n");
    }
    for (i, (context, body)) in p.rules.iter().enumerate() {
        out += &format!("(rule {i} {context} {})\n", spell(body));
    }
    for (id, kind, cells) in &p.objects {
        let values: String = cells[..p.types[*kind as usize].1 as usize].iter().map(|v| format!(" {v}")).collect();
        out += &format!("(ent {id} {kind}{values})\n");
    }
    for (r, a, b) in &p.links {
        out += &format!("(link {r} {a} {b})\n");
    }
    out
}

// The largest park, three links an object, whose text is no longer than so many bytes.
pub fn park_of(bytes: usize) -> Park {
    let mut n = 8;
    while text(&park::park(n + 8, 3 * (n + 8), 7)).len() <= bytes {
        n += 8;
    }
    park::park(n, 3 * n, 7)
}
