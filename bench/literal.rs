// Document 01's batch check word for word, whatever it costs: the register kept after each event, the reach rules asked of every rule at every
// object in one direction at a time. What the other checks have to agree with on small books.
use crate::incremental::Answer;
use crate::park::{Form, Park};
use crate::plain::Plain;

// The register after each event, the lent one first.
struct Story<'a> {
    book: &'a Park,
    events: &'a [[u32; 4]],
    after: Vec<Park>,
    end: Plain,
}

pub fn copy(p: &Park) -> Park {
    let (types, floors, relationships) = (p.types.clone(), p.floors.clone(), p.relationships.clone());
    Park { types, floors, relationships, rules: vec![], objects: p.objects.clone(), links: p.links.clone() }
}

fn under(p: &Park, t: u32, u: u32) -> bool {
    t == u || p.types[t as usize].0.is_some_and(|parent| under(p, parent, u))
}

fn type_of(p: &Park, id: u32) -> Option<u32> {
    p.objects.iter().find(|o| o.0 == id).map(|o| o.1)
}

fn in_type(p: &Park, id: u32, t: u32) -> bool {
    type_of(p, id).is_some_and(|x| under(p, x, t))
}

// Cell k of an object of type t is at least 0: t or a type above it has the floor.
fn floored(p: &Park, t: u32, k: u32) -> bool {
    p.floors.iter().any(|f| under(p, t, f.0) && f.1 == k)
}

fn below_floor(p: &Park, t: u32, cells: [i32; 8]) -> bool {
    (0..8).any(|k| cells[k] < 0 && floored(p, t, k as u32))
}

// Refusal 5: the first faulty row, objects first.
fn faulty_row(p: &Park) -> Option<u32> {
    let object = |i: usize| {
        let (id, t, cells) = p.objects[i];
        let ascends = i == 0 || p.objects[i - 1].0 < id;
        let fits = |x: &(Option<u32>, u32)| cells[x.1 as usize..].iter().all(|c| *c == 0) && !below_floor(p, t, cells);
        ascends && (1..=crate::park::LARGEST_ID).contains(&id) && p.types.get(t as usize).is_some_and(fits)
    };
    let link = |i: usize| {
        let (r, a, b) = p.links[i];
        let fits = |ends: &(u32, u32)| in_type(p, a, ends.0) && in_type(p, b, ends.1);
        (i == 0 || p.links[i - 1] < p.links[i]) && p.relationships.get(r as usize).is_some_and(fits)
    };
    let of = |count: usize, right: &dyn Fn(usize) -> bool| (0..count).find(|i| !right(*i)).map(|i| i as u32);
    of(p.objects.len(), &object).or_else(|| of(p.links.len(), &link))
}

// Refusals 7 to 13 and 15 of one event, in the table's order; 15 is checked after 11.
pub fn refusal(p: &Park, room: (usize, usize), [kind, x, y, z]: [u32; 4]) -> Option<u32> {
    let id = |n: u32| (1..=crate::park::LARGEST_ID).contains(&n);
    let (a_type, a_rel) = ((y as usize) < p.types.len(), (x as usize) < p.relationships.len());
    let known = match kind {
        0 | 5 | 6 => id(x) && a_type && z == 0,
        1 => id(x) && y == 0 && z == 0,
        2 => id(x) && y < 8,
        3 | 4 => a_rel && id(y) && id(z),
        _ => false,
    };
    let there = |n: u32| type_of(p, n).is_some();
    let named: &[u32] = match kind {
        0 => &[],
        3 | 4 => &[y, z],
        _ => &[x],
    };
    let linked = p.links.contains(&(x, y, z));
    let tests: [(u32, &dyn Fn() -> bool); 8] = [
        (7, &|| !known),
        (8, &|| !named.iter().all(|n| there(*n))),
        (9, &|| kind == 0 && there(x) || kind == 3 && linked),
        (10, &|| kind == 4 && !linked),
        (11, &|| !fits(p, [kind, x, y, z])),
        (15, &|| brought_below(p, [kind, x, y, z])),
        (12, &|| kind == 6 && holds_it(p, x, y)),
        (13, &|| kind == 0 && p.objects.len() >= room.0.min(1024) || kind == 3 && p.links.len() >= room.1.min(4096)),
    ];
    tests.iter().find(|t| t.1()).map(|t| t.0)
}

fn fits(p: &Park, [kind, x, y, z]: [u32; 4]) -> bool {
    let own = || type_of(p, x).unwrap();
    match kind {
        2 => y < p.types[own() as usize].1,
        3 => in_type(p, y, p.relationships[x as usize].0) && in_type(p, z, p.relationships[x as usize].1),
        5 => y != own() && under(p, y, own()),
        6 => y != own() && under(p, own(), y),
        _ => true,
    }
}

// a set of a floored cell below 0, or a special of an object with such a cell to a type that has the floor
fn brought_below(p: &Park, [kind, x, y, z]: [u32; 4]) -> bool {
    let object = || p.objects.iter().find(|o| o.0 == x).unwrap();
    match kind {
        2 => (z as i32) < 0 && floored(p, object().1, y),
        5 => below_floor(p, y, object().2),
        _ => false,
    }
}

// some link needs an object in a type that t is not under
fn holds_it(p: &Park, id: u32, t: u32) -> bool {
    let ends = |l: &(u32, u32, u32)| p.relationships[l.0 as usize];
    p.links.iter().any(|l| l.1 == id && !under(p, t, ends(l).0) || l.2 == id && !under(p, t, ends(l).1))
}

pub fn done(p: &Park, [kind, x, y, z]: [u32; 4]) -> Park {
    let mut q = copy(p);
    match kind {
        0 => q.objects.push((x, y, [0; 8])),
        1 => {
            q.objects.retain(|o| o.0 != x);
            q.links.retain(|l| l.1 != x && l.2 != x);
        }
        3 => q.links.push((x, y, z)),
        4 => q.links.retain(|l| *l != (x, y, z)),
        _ => {
            let o = q.objects.iter_mut().find(|o| o.0 == x).unwrap();
            if kind == 2 {
                o.2[y as usize] = z as i32;
            } else {
                o.1 = y;
                o.2[p.types[y as usize].1 as usize..].fill(0);
            }
        }
    }
    q.objects.sort();
    q.links.sort();
    q
}

impl Story<'_> {
    fn last(&self) -> &Park {
        self.after.last().unwrap()
    }

    // Some event of these kinds brought an object into a type, or took it out.
    fn brought(&self, kinds: &[u32], id: u32, t: u32) -> bool {
        self.changed(kinds, id, |before, after| !in_type(before, id, t) && in_type(after, id, t))
    }

    fn took(&self, kinds: &[u32], id: u32, t: u32) -> bool {
        self.changed(kinds, id, |before, after| in_type(before, id, t) && !in_type(after, id, t))
    }

    fn changed(&self, kinds: &[u32], id: u32, how: impl Fn(&Park, &Park) -> bool) -> bool {
        let named = |e: &[u32; 4]| kinds.contains(&e[0]) && e[1] == id;
        self.events.iter().enumerate().any(|(i, e)| named(e) && how(&self.after[i], &self.after[i + 1]))
    }

    fn was_set(&self, id: u32, k: u32) -> bool {
        self.events.iter().any(|e| e[..3] == [2, id, k])
    }

    // Up by a join whose link is there at the end; down by a part, or by a delete of another object that took a link to it along.
    fn role_moves(&self, id: u32, r: u32, up: bool) -> bool {
        let link = |far: u32| if r % 2 == 0 { (r / 2, id, far) } else { (r / 2, far, id) };
        let of_role = |e: &[u32; 4]| (e[1], e[2], e[3]) == link(if r % 2 == 0 { e[3] } else { e[2] });
        self.events.iter().enumerate().any(|(i, e)| match e[0] {
            1 => !up && e[1] != id && self.after[i].links.binary_search(&link(e[1])).is_ok(),
            3 => up && of_role(e) && self.last().links.contains(&(e[1], e[2], e[3])),
            4 => !up && of_role(e),
            _ => false,
        })
    }

    fn all_moves(&self, t: u32, up: bool) -> bool {
        let ids = self.events.iter().map(|e| e[1]);
        if up {
            return ids.into_iter().any(|id| self.brought(&[0, 5], id, t) && in_type(self.last(), id, t));
        }
        ids.into_iter().any(|id| self.took(&[1, 6], id, t))
    }

    // The type of a collection's members.
    fn member_type(&self, c: &Form) -> u32 {
        match c {
            Form::Role(_, r) if r % 2 == 0 => self.book.relationships[*r as usize / 2].1,
            Form::Role(_, r) => self.book.relationships[*r as usize / 2].0,
            Form::All(t) => *t,
            Form::Select(c, _) => self.member_type(c),
            _ => panic!("no collection"),
        }
    }

    // A sum over a floored cell rises by gain only and falls by loss only; another either way by both. A set moves each both ways.
    fn sum_moves(&self, c: &Form, k: u32, up: bool, vs: &mut Vec<usize>) -> bool {
        let other_way = !floored(self.book, self.member_type(c), k) && self.moves(c, !up, vs);
        other_way || self.moves(c, up, vs) || self.end.members(c, vs).iter().any(|x| self.was_set(self.end.ids[*x], k))
    }

    // Whether a form may turn true, rise or gain (up), or turn false, fall or lose. Variables hold rows of the end.
    fn moves(&self, f: &Form, up: bool, vs: &mut Vec<usize>) -> bool {
        let id = |v: &u32, vs: &Vec<usize>| self.end.ids[vs[*v as usize]];
        let any = |x: &Form, vs: &mut Vec<usize>| self.moves(x, true, vs) || self.moves(x, false, vs);
        match f {
            Form::Compare(0 | 1, x, y) => self.moves(x, !up, vs) || self.moves(y, up, vs),
            Form::Compare(4 | 5, x, y) => self.moves(x, up, vs) || self.moves(y, !up, vs),
            Form::Compare(_, x, y) => any(x, vs) || any(y, vs),
            Form::Not(x) => self.moves(x, !up, vs),
            Form::Connect(0 | 1, x, y) => self.moves(x, up, vs) || self.moves(y, up, vs),
            Form::Connect(2, x, y) => any(x, vs) || any(y, vs),
            Form::Connect(_, x, y) => self.moves(x, !up, vs) || self.moves(y, up, vs),
            Form::Quantify(0, c, b) => self.moves(c, !up, vs) || self.at_member(c, b, up, vs),
            Form::Quantify(_, c, b) => self.moves(c, up, vs) || self.at_member(c, b, up, vs),
            Form::Kind(v, t) if up => self.brought(&[5], id(v, vs), *t) && in_type(self.last(), id(v, vs), *t),
            Form::Kind(v, t) => self.took(&[6], id(v, vs), *t),
            Form::Num(_) => false,
            Form::Cell(v, k) => self.was_set(id(v, vs), *k),
            Form::Size(c) => self.moves(c, up, vs),
            Form::Sum(c, k) => self.sum_moves(c, *k, up, vs),
            Form::Combine(0, x, y) => self.moves(x, up, vs) || self.moves(y, up, vs),
            Form::Combine(_, x, y) => self.moves(x, up, vs) || self.moves(y, !up, vs),
            Form::Role(v, r) => self.role_moves(id(v, vs), *r, up),
            Form::All(t) => self.all_moves(*t, up),
            Form::Select(c, b) => self.moves(c, up, vs) || self.at_member(c, b, up, vs),
        }
    }

    fn at_member(&self, c: &Form, b: &Form, up: bool, vs: &mut Vec<usize>) -> bool {
        self.end.members(c, vs).into_iter().any(|x| {
            vs.push(x);
            let found = self.moves(b, up, vs);
            vs.pop();
            found
        })
    }

    fn selected(&self, context: u32, body: &Form, row: usize) -> bool {
        let id = self.end.ids[row];
        let inserted = || self.brought(&[0], id, context) && !quiet(body, &every_role(self.book));
        let special = || self.brought(&[5], id, context) && !quiet(body, &roles_from(self.book, context));
        // without events it is an inspection, which looks at everything
        in_type(self.last(), id, context) && (self.events.is_empty() || self.moves(body, false, &mut vec![row]) || inserted() || special())
    }
}

fn every_role(p: &Park) -> Vec<u32> {
    (0..2 * p.relationships.len() as u32).collect()
}

// Those that start at a type itself: an object that a special brings into it has no older link there.
fn roles_from(p: &Park, t: u32) -> Vec<u32> {
    let start = |r: &u32| {
        let (source, target) = p.relationships[*r as usize / 2];
        [source, target][*r as usize % 2]
    };
    every_role(p).into_iter().filter(|r| start(r) == t).collect()
}

fn over_one_of(c: &Form, roles: &[u32]) -> bool {
    matches!(c, Form::Role(0, r) if roles.contains(r))
}

// Quietness by some roles of self alone; a quantifier over another role is not counted.
fn quiet(f: &Form, roles: &[u32]) -> bool {
    match f {
        Form::Quantify(0, c, _) => over_one_of(c, roles),
        Form::Connect(0, x, y) => quiet(x, roles) && quiet(y, roles),
        Form::Connect(1, x, y) => quiet(x, roles) || quiet(y, roles),
        Form::Connect(3, x, y) => quietly_false(x, roles) || quiet(y, roles),
        Form::Not(x) => quietly_false(x, roles),
        _ => false,
    }
}

fn quietly_false(f: &Form, roles: &[u32]) -> bool {
    match f {
        Form::Quantify(1, c, _) => over_one_of(c, roles),
        Form::Connect(0, x, y) => quietly_false(x, roles) || quietly_false(y, roles),
        Form::Connect(1, x, y) => quietly_false(x, roles) && quietly_false(y, roles),
        Form::Connect(3, x, y) => quiet(x, roles) && quietly_false(y, roles),
        Form::Not(x) => quiet(x, roles),
        _ => false,
    }
}

pub struct Outcome {
    pub answer: Answer,
    pub pairs: Vec<(u32, u32)>,
    pub register: Park, // after the batch, where it is accepted, and else as lent
}

// The batch check of tables with room for so many objects and links, and a list of so many words.
pub fn batch(p: &Park, room: (usize, usize), events: &[[u32; 4]], list_words: usize) -> Outcome {
    let outcome = |answer, pairs, register| Outcome { answer, pairs, register };
    if let Some(row) = faulty_row(p) {
        return outcome(Answer::Refused(5, row), vec![], copy(p));
    }
    let mut after = vec![copy(p)];
    for (place, e) in events.iter().enumerate() {
        let now = after.last().unwrap();
        if let Some(number) = refusal(now, room, *e) {
            return outcome(Answer::Refused(number, place as u32), vec![], copy(p));
        }
        after.push(done(now, *e));
    }
    let end = Plain::new(after.last().unwrap());
    let story = Story { book: p, events, after, end };
    let pairs = listed(&story);
    if 2 * pairs.len() > list_words {
        return outcome(Answer::Refused(14, 0), vec![], copy(p));
    }
    let row = |id: u32| story.end.ids.iter().position(|x| *x == id).unwrap();
    let broken = pairs.iter().find(|(n, id)| !story.end.truth(&p.rules[*n as usize].1, &mut vec![row(*id)]));
    match broken.copied() {
        Some((rule, id)) => outcome(Answer::Broken(rule, id), pairs, copy(p)),
        None => outcome(Answer::Accepted, pairs, copy(story.last())),
    }
}

fn listed(story: &Story) -> Vec<(u32, u32)> {
    let mut pairs = vec![];
    for (n, (context, body)) in story.book.rules.iter().enumerate() {
        let rows = (0..story.end.ids.len()).filter(|row| story.selected(*context, body, *row));
        pairs.extend(rows.map(|row| (n as u32, story.end.ids[row])));
    }
    pairs
}
