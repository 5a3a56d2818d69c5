// A plain incremental check, written from document 01's reach rules on its own: what the proved batch check is measured against. It keeps an
// object's links as a list at the object, finds an object by a table over the ids, and goes back from what the events name to the objects
// whose rules they can break. Events are undone where the visit does not stand. Schema and rules are prepared once and
// trusted: of the refusals of lent tables it has 5, since rows may come from anywhere.
use crate::park::{Form, Park};

const UP: u8 = 1; // a truth turns true, a number rises, a collection gains
const DOWN: u8 = 2;
const LIMITS: (usize, usize) = (1024, 4096);

fn turned(d: u8) -> u8 {
    (d & UP) << 1 | (d & DOWN) >> 1
}

// both directions, if any is asked
fn either(d: u8) -> u8 {
    if d == 0 { 0 } else { UP | DOWN }
}

// Event types: those that a rule lists, or those that occur in a batch. Types, relationships and cells are bits.
#[derive(Default, Clone, Copy)]
struct Kinds {
    insert: u32,
    delete: u32,
    set: [u8; 32],
    join: u32,
    part: u32,
    special: u32,
    general: u32,
}

impl Kinds {
    fn meet(&self, o: &Kinds) -> bool {
        let words = self.insert & o.insert | self.delete & o.delete | self.join & o.join | self.part & o.part;
        words | self.special & o.special | self.general & o.general != 0 || self.set.iter().zip(&o.set).any(|(a, b)| a & b != 0)
    }
}

struct Rule {
    context: usize,
    body: Form,
    // whether an insert, or a special, into the context needs no look: a special brings along the links of roles that start higher
    quiet_insert: bool,
    quiet_special: bool,
    kinds: Kinds,
}

pub struct Book {
    above: Vec<u32>, // for each type the types that it is under, as bits
    cells: Vec<u32>,
    floored: Vec<u8>, // for each type the cells that are at least 0, as bits
    ends: Vec<(u32, u32)>,
    rules: Vec<Rule>,
}

impl Book {
    pub fn new(p: &Park) -> Book {
        let mut above: Vec<u32> = vec![];
        for (t, (parent, _)) in p.types.iter().enumerate() {
            above.push(1 << t | parent.map_or(0, |x| above[x as usize]));
        }
        let floors = |t: &u32| p.floors.iter().filter(|f| t >> f.0 & 1 == 1).fold(0, |cells, f| cells | 1 << f.1);
        let floored = above.iter().map(floors).collect();
        let mut book = Book { above, cells: p.types.iter().map(|t| t.1).collect(), floored, ends: p.relationships.clone(), rules: vec![] };
        for (context, body) in &p.rules {
            let quiet_insert = quiet(body, true, &|_| true);
            let quiet_special = quiet(body, true, &|r| book.start(r) == *context);
            let unless = |calm: bool| if calm { 0 } else { 1 << context };
            let mut kinds = Kinds { insert: unless(quiet_insert), special: unless(quiet_special), ..Kinds::default() };
            book.list(body, DOWN, &mut vec![*context], &mut kinds);
            book.rules.push(Rule { context: *context as usize, body: body.clone(), quiet_insert, quiet_special, kinds });
        }
        book
    }

    fn under(&self, t: u32, u: u32) -> bool {
        self.above[t as usize] >> u & 1 == 1
    }

    // the type that a role starts at
    fn start(&self, r: u32) -> u32 {
        let (source, target) = self.ends[r as usize / 2];
        if r % 2 == 0 { source } else { target }
    }

    // the type of a collection's members
    fn of(&self, c: &Form) -> u32 {
        match c {
            Form::Role(_, r) if r % 2 == 0 => self.ends[*r as usize / 2].1,
            Form::Role(_, r) => self.ends[*r as usize / 2].0,
            Form::All(t) => *t,
            Form::Select(c, _) => self.of(c),
            _ => panic!("no collection"),
        }
    }

    // The directions of a form's two parts that move it in some direction of d. A sum over a floored cell goes with its collection.
    fn parts(&self, f: &Form, d: u8) -> (u8, u8) {
        match f {
            Form::Compare(0 | 1, ..) => (turned(d), d),
            Form::Compare(2 | 3, ..) => (either(d), either(d)),
            Form::Compare(..) => (d, turned(d)),
            Form::Not(_) => (turned(d), 0),
            Form::Connect(2, ..) => (either(d), either(d)),
            Form::Connect(3, ..) => (turned(d), d),
            Form::Quantify(0, ..) => (turned(d), d),
            Form::Sum(c, k) if self.floored[self.of(c) as usize] >> k & 1 == 0 => (either(d), 0),
            Form::Combine(1, ..) => (d, turned(d)),
            _ => (d, d),
        }
    }

    // Whether an object of a type would be below a floor.
    fn below(&self, t: u32, cells: &[i32; 8]) -> bool {
        (0..8).any(|k| cells[k] < 0 && self.floored[t as usize] >> k & 1 == 1)
    }

    // The event types that may move a form in a direction of d; scope has the variables' types.
    fn list(&self, f: &Form, d: u8, scope: &mut Vec<u32>, out: &mut Kinds) {
        let (first, second) = self.parts(f, d);
        let up = |n: u32| if d & UP != 0 { 1 << n } else { 0 };
        let down = |n: u32| if d & DOWN != 0 { 1 << n } else { 0 };
        match f {
            Form::Compare(_, x, y) | Form::Connect(_, x, y) | Form::Combine(_, x, y) => {
                self.list(x, first, scope, out);
                self.list(y, second, scope, out);
            }
            Form::Not(x) | Form::Size(x) => self.list(x, first, scope, out),
            Form::Quantify(_, c, b) | Form::Select(c, b) => {
                self.list(c, first, scope, out);
                scope.push(self.of(c));
                self.list(b, second, scope, out);
                scope.pop();
            }
            Form::Sum(c, k) if d != 0 => {
                self.list(c, first, scope, out);
                out.set[self.of(c) as usize] |= 1 << k;
            }
            Form::Cell(v, k) if d != 0 => out.set[scope[*v as usize] as usize] |= 1 << k,
            Form::Kind(_, t) => {
                out.special |= up(*t);
                out.general |= down(*t);
            }
            Form::Role(_, r) => {
                out.join |= up(r / 2);
                out.part |= down(r / 2);
                out.delete |= down(self.of(f));
            }
            Form::All(t) => {
                out.insert |= up(*t);
                out.special |= up(*t);
                out.delete |= down(*t);
                out.general |= down(*t);
            }
            _ => (),
        }
    }
}

// Whether an object without links at the roles that count must satisfy a body, or must not, by its shape.
fn quiet(f: &Form, wanted: bool, counts: &dyn Fn(u32) -> bool) -> bool {
    let part = |x: &Form, wanted: bool| quiet(x, wanted, counts);
    match f {
        Form::Quantify(q, c, _) => (*q == 0) == wanted && matches!(**c, Form::Role(0, r) if counts(r)),
        Form::Not(x) => part(x, !wanted),
        Form::Connect(0, x, y) if wanted => part(x, true) && part(y, true),
        Form::Connect(0, x, y) => part(x, false) || part(y, false),
        Form::Connect(1, x, y) if wanted => part(x, true) || part(y, true),
        Form::Connect(1, x, y) => part(x, false) && part(y, false),
        Form::Connect(3, x, y) if wanted => part(x, false) || part(y, true),
        Form::Connect(3, x, y) => part(x, true) && part(y, false),
        _ => false,
    }
}

type Slot = u16;

#[derive(Default)]
struct Object {
    id: u32,
    kind: u32,
    cells: [i32; 8],
    ends: Vec<(u8, Slot)>, // role and far end of each link
    place: usize,          // among the objects of its type
    touch: u16,            // what the batch did to it; 0 for nothing
}

// What a batch did to an id: cells set, types entered and left, roles with a gain or a loss, as bits.
#[derive(Default)]
struct Touch {
    id: u32,
    set: u8,
    inserted: u32,
    specialised: u32,
    deleted: u32,
    generalised: u32,
    gains: u64,
    losses: u64,
}

enum Undo {
    Take(Slot),
    Bring(Slot, u32, u32, [i32; 8]),
    Cell(Slot, usize, i32),
    Unlink(u32, Slot, Slot),
    Link(u32, Slot, Slot),
    Retype(Slot, u32, [i32; 8]),
}

#[derive(Clone, Copy, Default)]
struct Name {
    id: u32,
    slot: Slot, // one above it; 0 for an id that is not there
    touch: u16,
}

// What is known of ids, as an open hash table: an id stands at the first free place from that of its hash on. It is more than twice as large as a register
// and a batch have ids, and an id that was named stays until `clear`.
struct Names(Vec<Name>);

impl Names {
    const BITS: u32 = 12;

    fn new() -> Names {
        Names(vec![Name::default(); 1 << Names::BITS])
    }

    fn clear(&mut self) {
        self.0.fill(Name::default());
    }

    fn place(&self, id: u32) -> usize {
        let mut at = (id.wrapping_mul(0x9e37_79b9) >> (32 - Names::BITS)) as usize;
        while ![0, id].contains(&self.0[at].id) {
            at = (at + 1) % self.0.len();
        }
        at
    }

    fn of(&self, id: u32) -> Name {
        self.0[self.place(id)]
    }

    fn of_mut(&mut self, id: u32) -> &mut Name {
        let at = self.place(id);
        self.0[at].id = id;
        &mut self.0[at]
    }
}

#[derive(Clone, Copy, PartialEq, Debug)]
pub enum Answer {
    Accepted,
    Broken(u32, u32),
    Refused(u32, u32),
}

pub struct Lists {
    names: Names,
    objects: Vec<Object>,
    free: Vec<Slot>,
    of_type: Vec<Vec<Slot>>,
    links: usize,
    undo: Vec<Undo>,
    touches: Vec<Touch>,
    touched: Vec<Slot>, // the objects named by the batch that are there at the end
    joined: Vec<(u32, u32, u32)>,
    occurring: Kinds,
    entered: u32, // the types whose `all` gained, and lost
    left: u32,
    pub pairs: Vec<(u32, u32)>,
}

impl Lists {
    pub fn new() -> Lists {
        Lists {
            names: Names::new(),
            objects: vec![],
            free: vec![],
            of_type: vec![vec![]; 32],
            links: 0,
            undo: vec![],
            touches: vec![Touch::default()],
            touched: vec![],
            joined: vec![],
            occurring: Kinds::default(),
            entered: 0,
            left: 0,
            pairs: vec![],
        }
    }

    // The lists of lent tables, in the memory of those before; or the refusal of the first faulty row.
    pub fn build(&mut self, book: &Book, objects: &[u32], links: &[u32]) -> Result<(), Answer> {
        self.names.clear();
        self.of_type.iter_mut().for_each(Vec::clear);
        self.free.clear();
        self.undo.clear();
        let used = objects.len() / 10;
        self.objects.truncate(used);
        self.objects.resize_with(used, Object::default);
        self.links = links.len() / 3;
        self.build_objects(book, objects).map_err(|row| Answer::Refused(5, row))?;
        self.build_links(book, links).map_err(|row| Answer::Refused(5, row))
    }

    fn build_objects(&mut self, book: &Book, objects: &[u32]) -> Result<(), u32> {
        let mut above = 0;
        for (i, row) in objects.chunks_exact(10).enumerate() {
            let (id, t) = (row[0], row[1]);
            let faulty = id <= above || id > crate::park::LARGEST_ID || t as usize >= book.cells.len();
            if faulty || row[2 + book.cells[t as usize] as usize..].iter().any(|w| *w != 0) {
                return Err(i as u32);
            }
            above = id;
            let of_type = &mut self.of_type[t as usize];
            let o = &mut self.objects[i];
            (o.id, o.kind, o.place, o.touch) = (id, t, of_type.len(), 0);
            o.cells.iter_mut().zip(&row[2..]).for_each(|(c, w)| *c = *w as i32);
            if book.below(t, &o.cells) {
                return Err(i as u32);
            }
            o.ends.clear();
            of_type.push(i as Slot);
            self.names.of_mut(id).slot = 1 + i as Slot;
        }
        Ok(())
    }

    fn build_links(&mut self, book: &Book, links: &[u32]) -> Result<(), u32> {
        let mut above: &[u32] = &[];
        for (i, l) in links.chunks_exact(3).enumerate() {
            let (Ok((a, b)), true) = (self.two_named(book, l[0], l[1], l[2]), above < l) else { return Err(i as u32) };
            if !self.ends_fit(book, l[0], a, b) {
                return Err(i as u32);
            }
            above = l;
            self.objects[a as usize].ends.push((2 * l[0] as u8, b));
            self.objects[b as usize].ends.push((2 * l[0] as u8 + 1, a));
        }
        Ok(())
    }

    fn at(&self, x: Slot) -> &Object {
        &self.objects[x as usize]
    }

    fn at_mut(&mut self, x: Slot) -> &mut Object {
        &mut self.objects[x as usize]
    }

    fn used_objects(&self) -> usize {
        self.objects.len() - self.free.len()
    }

    // The used rows of objects and links.
    pub fn used(&self) -> (usize, usize) {
        (self.used_objects(), self.links)
    }

    fn slot(&self, id: u32) -> Option<Slot> {
        self.names.of(id).slot.checked_sub(1)
    }

    fn has_link(&self, r: u32, a: Slot, b: Slot) -> bool {
        self.at(a).ends.contains(&(2 * r as u8, b))
    }
}

// Changes and their undoing.
impl Lists {
    fn put_in_type(&mut self, x: Slot, t: u32) {
        let place = self.of_type[t as usize].len();
        self.of_type[t as usize].push(x);
        let o = self.at_mut(x);
        (o.kind, o.place) = (t, place);
    }

    fn take_from_type(&mut self, x: Slot) {
        let (t, place) = (self.at(x).kind as usize, self.at(x).place);
        self.of_type[t].swap_remove(place);
        if let Some(moved) = self.of_type[t].get(place).copied() {
            self.at_mut(moved).place = place;
        }
    }

    fn bring(&mut self, id: u32, t: u32, cells: [i32; 8], at: Option<Slot>) -> Slot {
        let x = at.unwrap_or_else(|| {
            self.objects.push(Object::default());
            (self.objects.len() - 1) as Slot
        });
        let o = self.at_mut(x);
        (o.id, o.cells) = (id, cells);
        self.put_in_type(x, t);
        self.names.of_mut(id).slot = x + 1;
        x
    }

    fn take(&mut self, x: Slot) {
        self.take_from_type(x);
        let id = self.at(x).id;
        self.names.of_mut(id).slot = 0;
        self.free.push(x);
    }

    fn link(&mut self, r: u32, a: Slot, b: Slot) {
        self.at_mut(a).ends.push((2 * r as u8, b));
        self.at_mut(b).ends.push((2 * r as u8 + 1, a));
        self.links += 1;
    }

    fn unlink(&mut self, r: u32, a: Slot, b: Slot) {
        for (x, end) in [(a, (2 * r as u8, b)), (b, (2 * r as u8 + 1, a))] {
            let ends = &mut self.at_mut(x).ends;
            let i = ends.iter().position(|e| *e == end).unwrap();
            ends.swap_remove(i);
        }
        self.links -= 1;
    }

    fn retype(&mut self, x: Slot, t: u32, cells: [i32; 8]) {
        self.take_from_type(x);
        self.put_in_type(x, t);
        self.at_mut(x).cells = cells;
    }

    // Takes the last visit back.
    pub fn take_back(&mut self) {
        while let Some(step) = self.undo.pop() {
            match step {
                Undo::Take(x) => self.take(x),
                Undo::Bring(x, id, t, cells) => {
                    self.free.pop();
                    self.bring(id, t, cells, Some(x));
                }
                Undo::Cell(x, k, value) => self.at_mut(x).cells[k] = value,
                Undo::Unlink(r, a, b) => self.unlink(r, a, b),
                Undo::Link(r, a, b) => self.link(r, a, b),
                Undo::Retype(x, t, cells) => self.retype(x, t, cells),
            }
        }
    }
}

// Events: each refused by its number or done, with what it leaves for the reach rules.
impl Lists {
    fn touch(&mut self, id: u32) -> &mut Touch {
        let name = self.names.of_mut(id);
        if name.touch == 0 {
            name.touch = self.touches.len() as u16;
            self.touches.push(Touch { id, ..Touch::default() });
        }
        &mut self.touches[name.touch as usize]
    }

    fn object_named(&self, id: u32) -> Result<Slot, u32> {
        if !(1..=crate::park::LARGEST_ID).contains(&id) {
            return Err(7);
        }
        self.slot(id).ok_or(8)
    }

    fn insert(&mut self, book: &Book, room: usize, id: u32, t: u32) -> Result<(), u32> {
        if t as usize >= book.above.len() {
            return Err(7);
        }
        match self.object_named(id) {
            Err(8) => (),
            Err(number) => return Err(number),
            Ok(_) => return Err(9),
        }
        if self.used_objects() >= room {
            return Err(13);
        }
        let at = self.free.pop();
        let x = self.bring(id, t, [0; 8], at);
        self.undo.push(Undo::Take(x));
        self.touch(id).inserted |= book.above[t as usize];
        self.occurring.insert |= book.above[t as usize];
        Ok(())
    }

    fn delete(&mut self, book: &Book, id: u32) -> Result<(), u32> {
        let x = self.object_named(id)?;
        self.take_links(x);
        let (t, cells) = (self.at(x).kind, self.at(x).cells);
        self.undo.push(Undo::Bring(x, id, t, cells));
        self.take(x);
        self.touch(id).deleted |= book.above[t as usize];
        self.occurring.delete |= book.above[t as usize];
        Ok(())
    }

    // The links of an object that is deleted: each is a loss for the object at the other end, and none for the object itself.
    fn take_links(&mut self, x: Slot) {
        for (role, y) in std::mem::take(&mut self.at_mut(x).ends) {
            if y != x {
                let other = self.at_mut(y);
                let i = other.ends.iter().position(|e| *e == (role ^ 1, x)).unwrap();
                other.ends.swap_remove(i);
                let far = other.id;
                self.touch(far).losses |= 1 << (role ^ 1);
            } else if role % 2 == 1 {
                continue; // a link of the object to itself stands at both its roles
            }
            self.links -= 1;
            let r = role as u32 / 2;
            self.undo.push(if role % 2 == 0 { Undo::Link(r, x, y) } else { Undo::Link(r, y, x) });
        }
    }

    fn set(&mut self, book: &Book, id: u32, k: u32, value: i32) -> Result<(), u32> {
        if k > 7 {
            return Err(7);
        }
        let x = self.object_named(id)?;
        let kind = self.at(x).kind as usize;
        if k >= book.cells[kind] {
            return Err(11);
        }
        if value < 0 && book.floored[kind] >> k & 1 == 1 {
            return Err(15);
        }
        let cell = &mut self.at_mut(x).cells[k as usize];
        let before = std::mem::replace(cell, value);
        self.undo.push(Undo::Cell(x, k as usize, before));
        self.touch(id).set |= 1 << k;
        Ok(())
    }

    fn two_named(&self, book: &Book, r: u32, a: u32, b: u32) -> Result<(Slot, Slot), u32> {
        if r as usize >= book.ends.len() {
            return Err(7);
        }
        let (x, y) = (self.object_named(a), self.object_named(b));
        if x == Err(7) || y == Err(7) {
            return Err(7);
        }
        Ok((x?, y?))
    }

    fn ends_fit(&self, book: &Book, r: u32, x: Slot, y: Slot) -> bool {
        let (source, target) = book.ends[r as usize];
        book.under(self.at(x).kind, source) && book.under(self.at(y).kind, target)
    }

    fn join(&mut self, book: &Book, room: usize, r: u32, a: u32, b: u32) -> Result<(), u32> {
        let (x, y) = self.two_named(book, r, a, b)?;
        if self.has_link(r, x, y) {
            return Err(9);
        }
        if !self.ends_fit(book, r, x, y) {
            return Err(11);
        }
        if self.links >= room {
            return Err(13);
        }
        self.link(r, x, y);
        self.undo.push(Undo::Unlink(r, x, y));
        self.joined.push((r, a, b));
        self.occurring.join |= 1 << r;
        Ok(())
    }

    fn part(&mut self, book: &Book, r: u32, a: u32, b: u32) -> Result<(), u32> {
        let (x, y) = self.two_named(book, r, a, b)?;
        if !self.has_link(r, x, y) {
            return Err(10);
        }
        self.unlink(r, x, y);
        self.undo.push(Undo::Link(r, x, y));
        self.touch(a).losses |= 1 << (2 * r);
        self.touch(b).losses |= 1 << (2 * r + 1);
        self.occurring.part |= 1 << r;
        Ok(())
    }

    fn special(&mut self, book: &Book, id: u32, t: u32) -> Result<(), u32> {
        let x = self.other_type(book, id, t)?;
        let (old, cells) = (self.at(x).kind, self.at(x).cells);
        if t == old || !book.under(t, old) {
            return Err(11);
        }
        if book.below(t, &cells) {
            return Err(15);
        }
        self.retype(x, t, cells);
        self.undo.push(Undo::Retype(x, old, cells));
        let types = book.above[t as usize] & !book.above[old as usize];
        self.touch(id).specialised |= types;
        self.occurring.special |= types;
        Ok(())
    }

    fn general(&mut self, book: &Book, id: u32, t: u32) -> Result<(), u32> {
        let x = self.other_type(book, id, t)?;
        let (old, cells) = (self.at(x).kind, self.at(x).cells);
        if t == old || !book.under(old, t) {
            return Err(11);
        }
        let near = |role: u8| if role % 2 == 0 { book.ends[role as usize / 2].0 } else { book.ends[role as usize / 2].1 };
        if self.at(x).ends.iter().any(|e| !book.under(t, near(e.0))) {
            return Err(12);
        }
        let mut kept = cells;
        kept[book.cells[t as usize] as usize..].fill(0);
        self.retype(x, t, kept);
        self.undo.push(Undo::Retype(x, old, cells));
        let types = book.above[old as usize] & !book.above[t as usize];
        self.touch(id).generalised |= types;
        self.occurring.general |= types;
        Ok(())
    }

    fn other_type(&self, book: &Book, id: u32, t: u32) -> Result<Slot, u32> {
        if t as usize >= book.above.len() {
            return Err(7);
        }
        self.object_named(id)
    }

    fn step(&mut self, book: &Book, room: (usize, usize), e: [u32; 4]) -> Result<(), u32> {
        let [kind, x, y, z] = e;
        match kind {
            0 if z == 0 => self.insert(book, room.0, x, y),
            1 if y == 0 && z == 0 => self.delete(book, x),
            2 => self.set(book, x, y, z as i32),
            3 => self.join(book, room.1, x, y, z),
            4 => self.part(book, x, y, z),
            5 if z == 0 => self.special(book, x, y),
            6 if z == 0 => self.general(book, x, y),
            _ => Err(7),
        }
    }

    // What the events left at the end: roles with a gain, the objects that are there, the types with a gain or a loss.
    fn end(&mut self, book: &Book) {
        for i in 0..self.joined.len() {
            let (r, a, b) = self.joined[i];
            let (Some(x), Some(y)) = (self.slot(a), self.slot(b)) else { continue };
            if self.has_link(r, x, y) {
                self.touch(a).gains |= 1 << (2 * r);
                self.touch(b).gains |= 1 << (2 * r + 1);
            }
        }
        for i in 1..self.touches.len() {
            let t = &self.touches[i];
            self.left |= t.deleted | t.generalised;
            let Some(x) = self.slot(t.id) else { continue };
            let above = book.above[self.at(x).kind as usize];
            self.entered |= (t.inserted | t.specialised) & above;
            for kind in (0..book.above.len()).filter(|n| above >> n & 1 == 1) {
                self.occurring.set[kind] |= t.set;
            }
            self.at_mut(x).touch = i as u16;
            self.touched.push(x);
        }
    }

    fn forget(&mut self) {
        for t in self.touches.drain(1..) {
            self.names.of_mut(t.id).touch = 0;
        }
        for x in self.touched.drain(..) {
            self.objects[x as usize].touch = 0;
        }
        self.joined.clear();
        self.occurring = Kinds::default();
        (self.entered, self.left) = (0, 0);
    }
}

type Variables = Vec<Slot>;

// Meaning: what is true, what a number is, and the members of a collection until the visitor stops.
impl Lists {
    fn truth(&self, book: &Book, f: &Form, vs: &mut Variables) -> bool {
        match f {
            Form::Compare(o, x, y) => {
                let order = self.number(book, x, vs).cmp(&self.number(book, y, vs));
                [order.is_le(), order.is_lt(), order.is_eq(), order.is_ne(), order.is_ge(), order.is_gt()][*o as usize]
            }
            Form::Not(x) => !self.truth(book, x, vs),
            Form::Connect(0, x, y) => self.truth(book, x, vs) && self.truth(book, y, vs),
            Form::Connect(1, x, y) => self.truth(book, x, vs) || self.truth(book, y, vs),
            Form::Connect(2, x, y) => self.truth(book, x, vs) != self.truth(book, y, vs),
            Form::Connect(_, x, y) => !self.truth(book, x, vs) || self.truth(book, y, vs),
            Form::Quantify(0, c, b) => !self.each(book, c, vs, &mut |vs, x| !self.truth_with(book, b, vs, x)),
            Form::Quantify(_, c, b) => self.each(book, c, vs, &mut |vs, x| self.truth_with(book, b, vs, x)),
            Form::Kind(v, t) => book.under(self.at(vs[*v as usize]).kind, *t),
            _ => panic!("no truth"),
        }
    }

    fn truth_with(&self, book: &Book, b: &Form, vs: &mut Variables, x: Slot) -> bool {
        vs.push(x);
        let found = self.truth(book, b, vs);
        vs.pop();
        found
    }

    fn number(&self, book: &Book, f: &Form, vs: &mut Variables) -> i64 {
        match f {
            Form::Num(n) => *n as i64,
            Form::Cell(v, k) => self.at(vs[*v as usize]).cells[*k as usize] as i64,
            Form::Size(c) => {
                let mut n = 0;
                self.each(book, c, vs, &mut |_, _| {
                    n += 1;
                    false
                });
                n
            }
            Form::Sum(c, k) => {
                let mut n = 0;
                self.each(book, c, vs, &mut |_, x| {
                    n += self.at(x).cells[*k as usize] as i64;
                    false
                });
                n
            }
            Form::Combine(0, x, y) => self.number(book, x, vs) + self.number(book, y, vs),
            Form::Combine(_, x, y) => self.number(book, x, vs) - self.number(book, y, vs),
            _ => panic!("no number"),
        }
    }

    // Whether the visitor stopped at some member.
    fn each(&self, book: &Book, c: &Form, vs: &mut Variables, visit: &mut dyn FnMut(&mut Variables, Slot) -> bool) -> bool {
        match c {
            Form::Role(v, r) => {
                let ends = &self.at(vs[*v as usize]).ends;
                ends.iter().any(|e| e.0 == *r as u8 && visit(vs, e.1))
            }
            Form::All(t) => {
                let types = (0..book.above.len()).filter(|n| book.above[*n] >> t & 1 == 1);
                types.into_iter().any(|n| self.of_type[n].iter().any(|x| visit(vs, *x)))
            }
            Form::Select(c, b) => self.each(book, c, vs, &mut |vs, x| self.truth_with(book, b, vs, x) && visit(vs, x)),
            _ => panic!("no collection"),
        }
    }
}

// The reach rules, forward: whether a form may move in a direction of d at some variables.
impl Lists {
    fn moves(&self, book: &Book, f: &Form, d: u8, vs: &mut Variables) -> bool {
        if d == 0 {
            return false;
        }
        let (first, second) = book.parts(f, d);
        match f {
            Form::Compare(_, x, y) | Form::Connect(_, x, y) | Form::Combine(_, x, y) => {
                self.moves(book, x, first, vs) || self.moves(book, y, second, vs)
            }
            Form::Not(x) | Form::Size(x) => self.moves(book, x, first, vs),
            Form::Quantify(_, c, b) | Form::Select(c, b) => {
                self.moves(book, c, first, vs)
                    || self.each(book, c, vs, &mut |vs, x| {
                        vs.push(x);
                        let found = self.moves(book, b, second, vs);
                        vs.pop();
                        found
                    })
            }
            Form::Sum(c, k) => self.moves(book, c, first, vs) || self.each(book, c, vs, &mut |_, x| self.was_set(x, *k)),
            Form::Num(_) => false,
            Form::Cell(v, k) => self.was_set(vs[*v as usize], *k),
            Form::Kind(v, t) => self.changed_type(book, vs[*v as usize], *t, d),
            Form::Role(v, r) => self.changed_role(vs[*v as usize], *r, d),
            Form::All(t) => self.changed_all(*t, d),
        }
    }

    fn touch_at(&self, x: Slot) -> &Touch {
        &self.touches[self.at(x).touch as usize]
    }

    fn was_set(&self, x: Slot, k: u32) -> bool {
        self.touch_at(x).set >> k & 1 == 1
    }

    fn changed_type(&self, book: &Book, x: Slot, t: u32, d: u8) -> bool {
        let touch = self.touch_at(x);
        d & UP != 0 && touch.specialised >> t & 1 == 1 && book.under(self.at(x).kind, t) || d & DOWN != 0 && touch.generalised >> t & 1 == 1
    }

    fn changed_role(&self, x: Slot, r: u32, d: u8) -> bool {
        let touch = self.touch_at(x);
        d & UP != 0 && touch.gains >> r & 1 == 1 || d & DOWN != 0 && touch.losses >> r & 1 == 1
    }

    fn changed_all(&self, t: u32, d: u8) -> bool {
        d & UP != 0 && self.entered >> t & 1 == 1 || d & DOWN != 0 && self.left >> t & 1 == 1
    }
}

// Going back: for each variable in scope the objects at which a form may move; or everything.
struct Back<'a> {
    lists: &'a Lists,
    book: &'a Book,
    sets: Vec<Vec<Slot>>,
    everything: bool,
}

impl Back<'_> {
    fn put(&mut self, v: u32, test: impl Fn(Slot) -> bool) {
        let named = self.lists.touched.iter().copied();
        self.sets[v as usize].extend(named.filter(|x| test(*x)));
    }

    fn go(&mut self, f: &Form, d: u8, n: usize) {
        if d == 0 || self.everything {
            return;
        }
        let (first, second) = self.book.parts(f, d);
        let (lists, book) = (self.lists, self.book);
        match f {
            Form::Compare(_, x, y) | Form::Connect(_, x, y) | Form::Combine(_, x, y) => {
                self.go(x, first, n);
                self.go(y, second, n);
            }
            Form::Not(x) | Form::Size(x) => self.go(x, first, n),
            Form::Quantify(_, c, b) | Form::Select(c, b) => {
                self.go(c, first, n);
                self.bind(n);
                self.go(b, second, n + 1);
                self.through(c, n);
            }
            Form::Sum(c, k) => {
                self.go(c, first, n);
                self.bind(n);
                self.put(n as u32, |x| lists.was_set(x, *k));
                self.through(c, n);
            }
            Form::Num(_) => (),
            Form::Cell(v, k) => self.put(*v, |x| lists.was_set(x, *k)),
            Form::Kind(v, t) => self.put(*v, |x| lists.changed_type(book, x, *t, d)),
            Form::Role(v, r) => self.put(*v, |x| lists.changed_role(x, *r, d)),
            Form::All(t) => self.everything |= lists.changed_all(*t, d),
        }
    }

    // a new variable n, with nothing found yet
    fn bind(&mut self, n: usize) {
        if self.sets.len() == n {
            self.sets.push(vec![]);
        }
        self.sets[n].clear();
    }

    // From members of a collection to the objects that have them.
    fn through(&mut self, c: &Form, n: usize) {
        match c {
            Form::Select(c, _) => self.through(c, n),
            Form::Role(v, r) => {
                let mut members = std::mem::take(&mut self.sets[n]);
                members.sort_unstable();
                members.dedup();
                let ends = members.iter().flat_map(|x| &self.lists.at(*x).ends);
                self.sets[*v as usize].extend(ends.filter(|e| e.0 == (*r ^ 1) as u8).map(|e| e.1));
                self.sets[n] = members;
            }
            Form::All(_) => self.everything |= !self.sets[n].is_empty(),
            _ => panic!("no collection"),
        }
    }
}

// The batch check.
impl Lists {
    // The ids at which a rule is selected, ascending.
    fn selected(&self, book: &Book, rule: &Rule, sets: &mut Vec<Vec<Slot>>) -> Vec<u32> {
        sets.iter_mut().for_each(Vec::clear);
        let mut back = Back { lists: self, book, sets: std::mem::take(sets), everything: false };
        back.go(&rule.body, DOWN, 1);
        let t = rule.context as u32;
        let everything = back.everything;
        *sets = back.sets;
        let candidates = &mut sets[0];
        if everything {
            candidates.clear();
            candidates.extend(self.every(book, rule));
        } else {
            candidates.extend(self.touched.iter().copied().filter(|x| self.brought(rule, *x)));
            candidates.sort_unstable();
            candidates.dedup();
        }
        let chosen = |x: &Slot| book.under(self.at(*x).kind, t) && (self.brought(rule, *x) || self.moves(book, &rule.body, DOWN, &mut vec![*x]));
        let mut ids: Vec<u32> = candidates.iter().filter(|x| chosen(x)).map(|x| self.at(*x).id).collect();
        ids.sort_unstable();
        ids
    }

    // The objects of a rule's context type, in no order.
    fn every<'a>(&'a self, book: &'a Book, rule: &'a Rule) -> impl Iterator<Item = Slot> + 'a {
        let types = (0..book.above.len()).filter(|n| book.above[*n] >> rule.context & 1 == 1);
        types.flat_map(|n| self.of_type[n].iter().copied())
    }

    // whether the batch brought an object into a rule's context, so that the rule has to be looked at there
    fn brought(&self, rule: &Rule, x: Slot) -> bool {
        let touch = self.touch_at(x);
        let inserted = if rule.quiet_insert { 0 } else { touch.inserted };
        let specialised = if rule.quiet_special { 0 } else { touch.specialised };
        (inserted | specialised) >> rule.context & 1 == 1
    }

    fn select_all(&mut self, book: &Book) {
        let mut sets = vec![vec![]];
        let mut pairs = std::mem::take(&mut self.pairs);
        pairs.clear();
        for (n, rule) in book.rules.iter().enumerate().filter(|(_, r)| r.kinds.meet(&self.occurring)) {
            pairs.extend(self.selected(book, rule, &mut sets).into_iter().map(|id| (n as u32, id)));
        }
        self.pairs = pairs;
    }

    // A visit without events is an inspection: every rule at every object of its context type, with nothing to go back from and nothing to ask of the events.
    fn inspect(&mut self, book: &Book) {
        let mut pairs = std::mem::take(&mut self.pairs);
        pairs.clear();
        for (n, rule) in book.rules.iter().enumerate() {
            let start = pairs.len();
            pairs.extend(self.every(book, rule).map(|x| (n as u32, self.at(x).id)));
            pairs[start..].sort_unstable();
        }
        self.pairs = pairs;
    }

    fn first_broken(&self, book: &Book) -> Option<(u32, u32)> {
        let holds = |p: &(u32, u32)| self.truth(book, &book.rules[p.0 as usize].body, &mut vec![self.slot(p.1).unwrap()]);
        self.pairs.iter().copied().find(|p| !holds(p))
    }

    fn answer(&mut self, book: &Book, room: (usize, usize), events: &[[u32; 4]], list_words: usize) -> Answer {
        let room = (room.0.min(LIMITS.0), room.1.min(LIMITS.1));
        for (place, e) in events.iter().enumerate() {
            if let Err(number) = self.step(book, room, *e) {
                return Answer::Refused(number, place as u32);
            }
        }
        if events.is_empty() {
            self.inspect(book);
        } else {
            self.end(book);
            self.select_all(book);
        }
        if 2 * self.pairs.len() > list_words {
            return Answer::Refused(14, 0);
        }
        self.first_broken(book).map_or(Answer::Accepted, |(rule, id)| Answer::Broken(rule, id))
    }

    // One visit, for tables with room for so many objects and links and a list of so many words: the answer, and the pairs in `pairs`. The lists
    // are the register after it where it is accepted, and else as before.
    pub fn visit(&mut self, book: &Book, room: (usize, usize), events: &[[u32; 4]], list_words: usize) -> Answer {
        self.undo.clear();
        self.pairs.clear();
        let answer = self.answer(book, room, events, list_words);
        if answer != Answer::Accepted {
            self.take_back();
        }
        if let Answer::Refused(..) = answer {
            self.pairs.clear();
        }
        self.forget();
        answer
    }
}

fn key_place(rows: &[u32], width: usize, key: &[u32]) -> usize {
    let (mut low, mut high) = (0, rows.len() / width);
    while low < high {
        let middle = (low + high) / 2;
        if rows[middle * width..][..key.len()] < *key {
            low = middle + 1;
        } else {
            high = middle;
        }
    }
    low
}

fn open(rows: &mut [u32], used: &mut usize, width: usize, row: &[u32], key: usize) {
    let place = width * key_place(&rows[..width * *used], width, &row[..key]);
    rows.copy_within(place..width * *used, place + width);
    rows[place..place + width].copy_from_slice(row);
    *used += 1;
}

fn close(rows: &mut [u32], used: &mut usize, width: usize, key: &[u32]) {
    let place = width * key_place(&rows[..width * *used], width, key);
    rows.copy_within(place + width..width * *used, place);
    *used -= 1;
    rows[width * *used..][..width].fill(0);
}

// The links that have an object at no end, in their order.
fn close_links(rows: &mut [u32], used: &mut usize, id: u32) {
    let mut kept = 0;
    for row in 0..*used {
        if ![rows[3 * row + 1], rows[3 * row + 2]].contains(&id) {
            rows.copy_within(3 * row..3 * row + 3, 3 * kept);
            kept += 1;
        }
    }
    *used = kept;
}

// An accepted visit on the lent tables.
pub fn write_back(book: &Book, events: &[[u32; 4]], objects: &mut [u32], links: &mut [u32], used: &mut (usize, usize)) {
    for [kind, x, y, z] in events.iter().copied() {
        match kind {
            0 => open(objects, &mut used.0, 10, &[x, y, 0, 0, 0, 0, 0, 0, 0, 0], 1),
            1 => {
                close(objects, &mut used.0, 10, &[x]);
                close_links(links, &mut used.1, x);
            }
            3 => open(links, &mut used.1, 3, &[x, y, z], 3),
            4 => close(links, &mut used.1, 3, &[x, y, z]),
            _ => {
                let row = 10 * key_place(&objects[..10 * used.0], 10, &[x]);
                let row = &mut objects[row..row + 10];
                match kind {
                    2 => row[2 + y as usize] = z,
                    _ => row[1] = y,
                }
                if kind == 6 {
                    row[2 + book.cells[y as usize] as usize..].fill(0);
                }
            }
        }
    }
    objects[10 * used.0..].fill(0);
    links[3 * used.1..].fill(0);
}
