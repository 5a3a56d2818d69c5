// Parks and events of `bench/` as those of `checker.rs`.
use crate::checker::{self, Body, Event, Form, Link, Object, Rule};
use crate::{park, spelling};

pub fn objects(p: &park::Park) -> Vec<Object> {
    p.objects.iter().map(|&(id, type_number, cells)| Object { id, type_number, cells }).collect()
}

pub fn links(p: &park::Park) -> Vec<Link> {
    p.links.iter().map(|&(relationship, source, target)| Link { relationship, source, target }).collect()
}

// A form after its parts, as in a table of bodies.
fn put_forms(f: &park::Form, out: &mut Vec<Form>) {
    use park::Form::*;
    let parts: &[&park::Form] = match f {
        Compare(_, a, b) | Connect(_, a, b) | Quantify(_, a, b) | Combine(_, a, b) | Select(a, b) => &[a, b],
        Not(a) | Size(a) | Sum(a, _) => &[a],
        Kind(..) | Num(_) | Cell(..) | Role(..) | All(_) => &[],
    };
    parts.iter().for_each(|part| put_forms(part, out));
    out.push(match *f {
        Compare(o, ..) => [Form::Le, Form::Lt, Form::Eq, Form::Ne, Form::Ge, Form::Gt][o as usize],
        Not(_) => Form::Not,
        Connect(o, ..) => [Form::And, Form::Or, Form::Xor, Form::Implies][o as usize],
        Quantify(q, ..) => [Form::Forall, Form::Exists][q as usize],
        Kind(variable, type_number) => Form::Kind { variable, type_number },
        Num(value) => Form::Num { value },
        Cell(variable, cell) => Form::Cell { variable, cell },
        Size(_) => Form::Size,
        Sum(_, cell) => Form::Sum { cell },
        Combine(o, ..) => [Form::Add, Form::Sub][o as usize],
        Role(variable, role) => Form::Role { variable, role },
        All(type_number) => Form::All { type_number },
        Select(..) => Form::Select,
    });
}

pub fn rules(p: &park::Park) -> Vec<Rule> {
    let body = |f: &park::Form| {
        let mut forms = vec![];
        put_forms(f, &mut forms);
        Body { forms }
    };
    p.rules.iter().map(|(context, f)| Rule { context: *context, body: body(f) }).collect()
}

// The park's book alone, as a text.
pub fn book_text(p: &park::Park) -> String {
    let (types, floors, relationships, rules) = (p.types.clone(), p.floors.clone(), p.relationships.clone(), p.rules.clone());
    spelling::text(&park::Park { types, floors, relationships, rules, objects: vec![], links: vec![] })
}

pub fn park(p: &park::Park) -> checker::Park {
    let (mut out, _) = checker::Park::read(book_text(p).as_bytes()).expect("a book");
    out.set_register(&objects(p), &links(p)).expect("a register");
    out
}

// A row as an event, if it is one that can be said.
pub fn event(row: &[u32; 4]) -> Option<Event> {
    match *row {
        [0, object, type_number, 0] => Some(Event::Insert { object, type_number }),
        [1, object, 0, 0] => Some(Event::Delete { object }),
        [2, object, cell, value] => Some(Event::Set { object, cell, value: value as i32 }),
        [3, relationship, source, target] => Some(Event::Join { relationship, source, target }),
        [4, relationship, source, target] => Some(Event::Part { relationship, source, target }),
        [5, object, type_number, 0] => Some(Event::Special { object, type_number }),
        [6, object, type_number, 0] => Some(Event::General { object, type_number }),
        _ => None,
    }
}

pub fn events(rows: &[[u32; 4]]) -> Vec<Event> {
    rows.iter().filter_map(event).collect()
}
