// Books and registers for the measurements, as tables in the layout of docs/TABLES.md and as plain structures.

// A small generator of repeatable numbers (Marsaglia's xorshift).
pub struct Draw(pub u32);

impl Draw {
    pub fn next(&mut self) -> u32 {
        let mut x = self.0;
        x ^= x << 13;
        x ^= x >> 17;
        x ^= x << 5;
        self.0 = x;
        x
    }
    pub fn below(&mut self, n: u32) -> u32 {
        self.next() % n
    }
}

#[derive(Clone)]
pub enum Form {
    Compare(u32, Box<Form>, Box<Form>),
    Not(Box<Form>),
    Connect(u32, Box<Form>, Box<Form>),
    Quantify(u32, Box<Form>, Box<Form>),
    Kind(u32, u32),
    Num(i32),
    Cell(u32, u32),
    Size(Box<Form>),
    Sum(Box<Form>, u32),
    Combine(u32, Box<Form>, Box<Form>),
    Role(u32, u32),
    All(u32),
    Select(Box<Form>, Box<Form>),
}

// The rows of a form: each after its parts, four words a row.
pub fn write(f: &Form, out: &mut Vec<u32>) {
    match f {
        Form::Compare(o, a, b) => {
            write(a, out);
            write(b, out);
            out.extend([*o, 0, 0, 0]);
        }
        Form::Not(a) => {
            write(a, out);
            out.extend([6, 0, 0, 0]);
        }
        Form::Connect(o, a, b) => {
            write(a, out);
            write(b, out);
            out.extend([7 + o, 0, 0, 0]);
        }
        Form::Quantify(q, c, b) => {
            write(c, out);
            write(b, out);
            out.extend([11 + q, 0, 0, 0]);
        }
        Form::Kind(v, t) => out.extend([13, *v, *t, 0]),
        Form::Num(n) => out.extend([14, *n as u32, 0, 0]),
        Form::Cell(v, k) => out.extend([15, *v, *k, 0]),
        Form::Size(c) => {
            write(c, out);
            out.extend([16, 0, 0, 0]);
        }
        Form::Sum(c, k) => {
            write(c, out);
            out.extend([17, *k, 0, 0]);
        }
        Form::Combine(o, a, b) => {
            write(a, out);
            write(b, out);
            out.extend([18 + o, 0, 0, 0]);
        }
        Form::Role(v, r) => out.extend([20, *v, *r, 0]),
        Form::All(t) => out.extend([21, *t, 0, 0]),
        Form::Select(c, b) => {
            write(c, out);
            write(b, out);
            out.extend([22, 0, 0, 0]);
        }
    }
}

pub struct Park {
    pub types: Vec<(Option<u32>, u32)>,
    pub floors: Vec<(u32, u32)>, // type and cell
    pub relationships: Vec<(u32, u32)>,
    pub rules: Vec<(u32, Form)>,
    pub objects: Vec<(u32, u32, [i32; 8])>,
    pub links: Vec<(u32, u32, u32)>,
}

#[derive(Clone)]
pub struct Tables {
    pub types: Vec<u32>,
    pub floors: Vec<u32>,
    pub relationships: Vec<u32>,
    pub rules: Vec<u32>,
    pub bodies: Vec<u32>,
    pub objects: Vec<u32>,
    pub links: Vec<u32>,
}

pub fn tables(p: &Park) -> Tables {
    let mut t = Tables { types: vec![], floors: vec![], relationships: vec![], rules: vec![], bodies: vec![], objects: vec![], links: vec![] };
    for (parent, cells) in &p.types {
        t.types.extend([parent.unwrap_or(u32::MAX), *cells]);
    }
    for (kind, cell) in &p.floors {
        t.floors.extend([*kind, *cell]);
    }
    for (s, d) in &p.relationships {
        t.relationships.extend([*s, *d]);
    }
    for (context, body) in &p.rules {
        let mut rows = vec![];
        write(body, &mut rows);
        t.rules.extend([*context, (rows.len() / 4) as u32]);
        rows.resize(64 * 4, 0);
        t.bodies.extend(rows);
    }
    for (id, kind, cells) in &p.objects {
        t.objects.extend([*id, *kind]);
        t.objects.extend(cells.iter().map(|c| *c as u32));
    }
    for (r, a, b) in &p.links {
        t.links.extend([*r, *a, *b]);
    }
    t
}

fn b(f: Form) -> Box<Form> {
    Box::new(f)
}

// Six types, the last two under the fourth; ten relationships; thirty rules of the kinds that parks write: roles one and two deep, sums,
// sizes, selects, all. Every rule holds, so that a full check visits everything.
fn rules() -> Vec<(u32, Form)> {
    use Form::*;
    let mut out = vec![];
    for k in 0..6u32 {
        let r = k % 10;
        // the sum of what hangs on a cabinet stays below its rating
        out.push((0, Compare(0, b(Sum(b(Role(0, 2 * r)), 1)), b(Cell(0, 0)))));
        // each member fits
        out.push((0, Quantify(0, b(Role(0, 2 * r)), b(Compare(0, b(Cell(1, 1)), b(Cell(0, 0)))))));
        // two roles deep: what hangs on the members
        out.push((0, Quantify(0, b(Role(0, 2 * r)), b(Quantify(0, b(Role(1, 2 * r + 1)), b(Compare(0, b(Cell(1, 1)), b(Cell(2, 0)))))))));
        // not too many of some sort
        out.push((0, Compare(0, b(Size(b(Select(b(Role(0, 2 * r)), b(Compare(5, b(Cell(1, 2)), b(Num(0)))))))), b(Num(4096)))));
        // a drive has a cabinet, or is no drive
        out.push((1, Connect(1, b(Quantify(1, b(Role(0, 2 * r + 1)), b(Compare(4, b(Cell(1, 0)), b(Num(0)))))), b(Compare(4, b(Size(b(Role(0, 2 * r + 1)))), b(Num(0)))))));
    }
    out.truncate(29);
    // all of a type, once
    out.push((5, Compare(0, b(Size(b(All(4)))), b(Num(1024)))));
    out
}

pub fn park(objects: u32, links: u32, seed: u32) -> Park {
    let mut d = Draw(seed);
    let types = vec![(None, 3), (None, 3), (None, 1), (None, 2), (Some(3), 3), (Some(4), 4)];
    let relationships = (0..10).map(|_| (0, 1)).collect();
    let mut objs = vec![];
    for i in 0..objects {
        let kind = match i % 8 {
            0 | 1 => 0,
            2 | 3 | 4 => 1,
            5 => 2,
            6 => 4,
            _ => if i % 64 == 7 { 5 } else { 3 },
        };
        let mut cells = [0i32; 8];
        if kind == 0 {
            cells[0] = 1_000_000;
        } else if kind == 1 {
            cells[1] = (d.below(100)) as i32;
            cells[2] = (d.below(3)) as i32;
        }
        objs.push((1 + i * 3, kind, cells));
    }
    let cabinets: Vec<u32> = objs.iter().filter(|o| o.1 == 0).map(|o| o.0).collect();
    let drives: Vec<u32> = objs.iter().filter(|o| o.1 == 1).map(|o| o.0).collect();
    let mut set = std::collections::BTreeSet::new();
    while (set.len() as u32) < links {
        let r = d.below(10);
        let a = cabinets[d.below(cabinets.len() as u32) as usize];
        let c = drives[d.below(drives.len() as u32) as usize];
        set.insert((r, a, c));
    }
    Park { types, floors: vec![], relationships, rules: rules(), objects: objs, links: set.into_iter().collect() }
}

// How the objects of a park are numbered. The types, cells and links stay the same; ids ascend with the rows.
#[derive(Clone, Copy)]
pub enum Ids {
    /// 1, 4, 7, ..: as `park` gives them
    Stepped,
    /// drawn by a seed, up to an end
    Drawn(u32, u32),
    /// all with the same remainder by 4,096
    Clashing,
}

pub const LARGEST_ID: u32 = 2_147_483_647;
pub const HALF_WORD: u32 = 65_535;

impl Ids {
    // The end of the range that new ids are drawn from.
    pub fn most(self) -> u32 {
        match self {
            Ids::Stepped => HALF_WORD,
            Ids::Drawn(_, most) => most,
            Ids::Clashing => 1024 * 4096,
        }
    }
}

pub fn numbers(ids: Ids, count: usize) -> Vec<u32> {
    let mut set = std::collections::BTreeSet::new();
    match ids {
        Ids::Stepped => set.extend((0..count as u32).map(|i| 1 + i * 3)),
        Ids::Drawn(seed, most) => {
            let mut d = Draw(seed);
            while set.len() < count {
                set.insert(1 + d.below(most));
            }
        }
        Ids::Clashing => set.extend((0..count as u32).map(|k| 1 + 4096 * k)),
    }
    set.into_iter().take(count).collect()
}

// The park with its objects numbered anew.
pub fn numbered(mut p: Park, ids: Ids) -> Park {
    let new = numbers(ids, p.objects.len());
    let row: std::collections::HashMap<u32, usize> = p.objects.iter().enumerate().map(|(i, o)| (o.0, i)).collect();
    for l in &mut p.links {
        *l = (l.0, new[row[&l.1]], new[row[&l.2]]);
    }
    for (o, id) in p.objects.iter_mut().zip(new) {
        o.0 = id;
    }
    p
}

// The kinds of ids that the measurements go through, with what they print for each.
pub const KINDS: [(&str, Ids); 4] = [
    ("ids 1, 4, 7, ..", Ids::Stepped),
    ("ids drawn over 1 to 65,535", Ids::Drawn(11, HALF_WORD)),
    ("ids drawn over 1 to 2,147,483,647", Ids::Drawn(11, LARGEST_ID)),
    ("ids that clash: all with one remainder by 4,096", Ids::Clashing),
];
