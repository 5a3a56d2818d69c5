// Small books, registers and batches drawn at random, for checks that have to agree.
use crate::literal;
use crate::park::{Draw, Form, Park};

struct Drawer<'a> {
    draw: Draw,
    types: &'a [(Option<u32>, u32)],
    relationships: &'a [(u32, u32)],
    floors: &'a [(u32, u32)],
}

fn under(types: &[(Option<u32>, u32)], t: u32, u: u32) -> bool {
    t == u || types[t as usize].0.is_some_and(|parent| under(types, parent, u))
}

fn b(f: Form) -> Box<Form> {
    Box::new(f)
}

// Well-typed forms; scope has the types of the variables.
impl Drawer<'_> {
    fn small(&mut self) -> i32 {
        self.draw.below(7) as i32 - 3
    }

    fn variable(&mut self, scope: &[u32]) -> u32 {
        self.draw.below(scope.len() as u32)
    }

    fn truth(&mut self, depth: u32, scope: &mut Vec<u32>) -> Form {
        let pick = self.draw.below(if depth == 0 { 4 } else { 16 });
        match pick {
            0 | 14 | 15 => {
                let v = self.variable(scope);
                Form::Kind(v, self.draw.below(self.types.len() as u32))
            }
            1..=5 => {
                let op = self.draw.below(6);
                let below = depth.saturating_sub(1);
                Form::Compare(op, b(self.number(below, scope)), b(self.number(below, scope)))
            }
            6 => Form::Not(b(self.truth(depth - 1, scope))),
            7..=9 => {
                let op = self.draw.below(4);
                Form::Connect(op, b(self.truth(depth - 1, scope)), b(self.truth(depth - 1, scope)))
            }
            _ => {
                let (c, t) = self.collection(depth - 1, scope);
                scope.push(t);
                let body = self.truth(depth - 1, scope);
                scope.pop();
                Form::Quantify(pick % 2, b(c), b(body))
            }
        }
    }

    fn number(&mut self, depth: u32, scope: &mut Vec<u32>) -> Form {
        // with floors there are more sums
        let pick = self.draw.below(if depth == 0 { 4 } else if self.floors.is_empty() { 10 } else { 20 });
        match pick {
            0 => Form::Num(self.small()),
            1..=3 => {
                let v = self.variable(scope);
                match self.types[scope[v as usize] as usize].1 {
                    0 => Form::Num(self.small()),
                    cells => Form::Cell(v, self.draw.below(cells)),
                }
            }
            4 | 5 => Form::Size(b(self.collection(depth - 1, scope).0)),
            6..=8 | 10.. => {
                let (c, t) = self.collection(depth - 1, scope);
                match self.types[t as usize].1 {
                    0 => Form::Size(b(c)),
                    cells => Form::Sum(b(c), self.draw.below(cells)),
                }
            }
            _ => {
                let op = self.draw.below(2);
                Form::Combine(op, b(self.number(depth - 1, scope)), b(self.number(depth - 1, scope)))
            }
        }
    }

    // The body, or a forall over a role of self: a quiet body, at which an insert by itself selects nothing.
    fn made_quiet(&mut self, body: Form, context: u32) -> Form {
        let roles = self.roles(&[context]);
        let Some((_, r, t)) = pick(&mut self.draw, &roles) else { return body };
        let each = self.truth(1, &mut vec![context, t]);
        Form::Connect(1, b(Form::Quantify(0, b(Form::Role(0, r)), b(each))), b(body))
    }

    // A collection and its members' type.
    fn collection(&mut self, depth: u32, scope: &mut Vec<u32>) -> (Form, u32) {
        if depth > 0 && self.draw.below(4) == 0 {
            let (c, t) = self.collection(depth - 1, scope);
            scope.push(t);
            let body = self.truth(depth - 1, scope);
            scope.pop();
            return (Form::Select(b(c), b(body)), t);
        }
        let roles = self.roles(scope);
        if roles.is_empty() || self.draw.below(5) == 0 {
            let t = self.draw.below(self.types.len() as u32);
            return (Form::All(t), t);
        }
        let (v, r, t) = roles[self.draw.below(roles.len() as u32) as usize];
        (Form::Role(v, r), t)
    }

    // the roles that each variable has, with the type at the far end
    fn roles(&self, scope: &[u32]) -> Vec<(u32, u32, u32)> {
        let mut out = vec![];
        for (v, t) in scope.iter().enumerate() {
            for (r, (source, target)) in self.relationships.iter().enumerate() {
                let roles = [(2 * r as u32, source, target), (2 * r as u32 + 1, target, source)];
                out.extend(roles.iter().filter(|x| under(self.types, *t, *x.1)).map(|x| (v as u32, x.0, *x.2)));
            }
        }
        out
    }
}

fn forms(f: &Form) -> usize {
    let mut rows = vec![];
    crate::park::write(f, &mut rows);
    rows.len() / 4
}

fn types(d: &mut Draw) -> Vec<(Option<u32>, u32)> {
    let mut out: Vec<(Option<u32>, u32)> = vec![];
    for n in 0..2 + d.below(4) {
        let parent = if n == 0 || d.below(3) == 0 { None } else { Some(d.below(n)) };
        let least = parent.map_or(0, |p| out[p as usize].1);
        out.push((parent, (least + d.below(3)).min(8)));
    }
    out
}

// Floors of some cells, in every second book. They have a draw of their own, so that the other books stay what they were without floors.
fn floors(seed: u32, types: &[(Option<u32>, u32)]) -> Vec<(u32, u32)> {
    let mut d = Draw(seed + 2_000_000);
    let cells = types.iter().enumerate().flat_map(|(t, (_, cells))| (0..*cells).map(move |k| (t as u32, k)));
    cells.filter(|_| seed % 2 == 0 && d.below(3) > 0).collect()
}

// Puts each floored cell up to 0 or above it.
fn keep_floors(p: &mut Park) {
    let Park { types, floors, objects, .. } = p;
    for (_, t, cells) in objects {
        let own = floors.iter().filter(|f| under(types, *t, f.0));
        own.for_each(|f| cells[f.1 as usize] = cells[f.1 as usize].abs());
    }
}

fn objects(d: &mut Draw, types: &[(Option<u32>, u32)]) -> Vec<(u32, u32, [i32; 8])> {
    let mut out = std::collections::BTreeMap::new();
    for _ in 0..d.below(12) {
        let (id, t) = (1 + d.below(14), d.below(types.len() as u32));
        let mut cells = [0; 8];
        for c in &mut cells[..types[t as usize].1 as usize] {
            *c = d.below(7) as i32 - 3;
        }
        out.insert(id, (t, cells));
    }
    out.into_iter().map(|(id, (t, cells))| (id, t, cells)).collect()
}

// A book of one to six rules with a register of up to a dozen objects, which keeps the book's floors.
pub fn book(seed: u32) -> Park {
    let mut d = Draw(seed);
    let types = types(&mut d);
    let n = types.len() as u32;
    let relationships: Vec<(u32, u32)> = (0..1 + d.below(3)).map(|_| (d.below(n), d.below(n))).collect();
    let floors = floors(seed, &types);
    let objects = objects(&mut d, &types);
    let mut links = std::collections::BTreeSet::new();
    for _ in 0..d.below(20) * (objects.len() as u32 / 3) {
        let r = d.below(relationships.len() as u32);
        let [x, y] = [0, 1].map(|_| objects[d.below(objects.len() as u32) as usize]);
        let (source, target) = relationships[r as usize];
        if under(&types, x.1, source) && under(&types, y.1, target) {
            links.insert((r, x.0, y.0));
        }
    }
    let count = 1 + d.below(6);
    let mut drawer = Drawer { draw: d, types: &types, relationships: &relationships, floors: &floors };
    let mut rules = vec![];
    while rules.len() < count as usize {
        let context = drawer.draw.below(n);
        let depth = drawer.draw.below(5);
        let mut body = drawer.truth(depth, &mut vec![context]);
        if drawer.draw.below(4) == 0 {
            body = drawer.made_quiet(body, context);
        }
        if forms(&body) <= 64 {
            rules.push((context, body));
        }
    }
    let mut park = Park { types, floors, relationships, rules, objects, links: links.into_iter().collect() };
    keep_floors(&mut park);
    park
}

// A register with one word changed, or two neighbours exchanged.
pub fn damaged(mut p: Park, seed: u32) -> Park {
    let mut d = Draw(seed);
    let (objects, links) = (p.objects.len() as u32, p.links.len() as u32);
    let value = [0, 1, 2, 6, 30, 1 << 31, u32::MAX][d.below(7) as usize];
    match d.below(6) {
        0 if objects > 0 => p.objects[d.below(objects) as usize].0 = value,
        1 if objects > 0 => p.objects[d.below(objects) as usize].1 = value,
        2 if objects > 0 => p.objects[d.below(objects) as usize].2[d.below(8) as usize] = value as i32,
        3 if links > 0 => p.links[d.below(links) as usize].0 = value,
        4 if links > 0 => p.links[d.below(links) as usize].2 = value,
        _ if links > 1 => p.links.swap(0, 1 + d.below(links - 1) as usize),
        _ => (),
    }
    p
}

// Rows lent for objects and links, few enough to be used up at times.
pub const ROOM: (usize, usize) = (14, 60);

fn pick<T: Copy>(d: &mut Draw, of: &[T]) -> Option<T> {
    if of.is_empty() { None } else { Some(of[d.below(of.len() as u32) as usize]) }
}

// A type below an object's own, or above it, if there is one.
fn other_type(d: &mut Draw, p: &Park, id: u32, below: bool) -> u32 {
    let Some(own) = p.objects.iter().find(|o| o.0 == id).map(|o| o.1) else { return 0 };
    let fits = |t: &u32| *t != own && if below { under(&p.types, *t, own) } else { under(&p.types, own, *t) };
    let types: Vec<u32> = (0..p.types.len() as u32).filter(fits).collect();
    pick(d, &types).unwrap_or(own)
}

// An event of some kind that names what may be there.
fn event(d: &mut Draw, p: &Park) -> [u32; 4] {
    // mostly one of the first three, so that events meet at an object
    let id = |d: &mut Draw| {
        let of = if d.below(4) > 0 { &p.objects[..p.objects.len().min(3)] } else { &p.objects[..] };
        pick(d, of).map_or(1, |o| o.0)
    };
    let (t, r) = (d.below(p.types.len() as u32), d.below(p.relationships.len() as u32));
    match d.below(20) {
        0 | 1 => [0, 1 + d.below(14), t, 0],
        2 | 3 => [1, id(d), 0, 0],
        4..=7 => [2, id(d), d.below(4), d.below(7).wrapping_sub(3)],
        8 | 9 => [3, r, id(d), id(d)],
        10..=12 => pick(d, &p.links).map_or([9, 0, 0, 0], |l| [4, l.0, l.1, l.2]),
        kind @ 13..=18 => {
            let x = id(d);
            let below = kind < 16;
            [if below { 5 } else { 6 }, x, other_type(d, p, x, below), 0]
        }
        _ => [d.below(8), d.below(16), d.below(9), d.below(2)],
    }
}

// A batch of up to twelve events. One in some hundred of those that are refused is kept, and one in ten of those below a floor. Half of the objects that are
// deleted come back at once.
pub fn batch(p: &Park, seed: u32) -> Vec<[u32; 4]> {
    let mut d = Draw(seed);
    let count = d.below(13) as usize;
    let (mut now, mut out, mut gone) = (literal::copy(p), vec![], None);
    for _ in 0..200 {
        let e = gone.take().unwrap_or_else(|| event(&mut d, &now));
        let number = literal::refusal(&now, ROOM, e);
        let refused = number.is_some();
        if out.len() == count || refused && d.below(if number == Some(15) { 10 } else { 150 }) > 0 {
            continue;
        }
        out.push(e);
        if refused {
            break;
        }
        if e[0] == 1 && d.below(2) == 0 {
            gone = now.objects.iter().find(|o| o.0 == e[1]).map(|o| [0, o.0, o.1, 0]);
        }
        now = literal::done(&now, e);
    }
    out
}
