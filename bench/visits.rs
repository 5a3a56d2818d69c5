// A wind park in sections whose spares serve only each other, and visits to it. The smaller park is two sections of the larger one, with the same
// ids, cells and links, and every visit stays in those two: the same events on both.
use crate::fitters::*;
use crate::park::{numbers, Draw, Ids, Park, HALF_WORD, LARGEST_ID};
use std::collections::{BTreeMap, BTreeSet};

const IN_SECTION: usize = 125;
const LINKS_IN_SECTION: usize = 500;
pub const LARGE: [usize; 8] = [0, 1, 2, 3, 4, 5, 6, 7];
pub const SMALL: [usize; 2] = [2, 5];
const STORE_IN: usize = 2;

// What stands in a section: eight turbines with fourteen other objects each, then spares.
const TURBINES: usize = 8;
const PARTS: usize = 15;
const AT_TURBINE: usize = 0;
const AT_ROTOR: usize = 1;
const AT_BLADE: usize = 2;
const AT_CABINET: usize = 5;
const AT_DRIVE: usize = 6;
const AT_BOX: usize = 9;
const AT_ENCODER: usize = 12;

// The id of place k of section s. The sections' ids are mixed.
struct Numbers(Vec<u32>);

impl Numbers {
    fn drawn() -> Numbers {
        Numbers(numbers(Ids::Drawn(11, HALF_WORD), IN_SECTION * LARGE.len()))
    }
    fn place(&self, s: usize, k: usize) -> u32 {
        self.0[k * LARGE.len() + s]
    }
    fn part(&self, s: usize, turbine: usize, part: usize) -> u32 {
        self.place(s, turbine % TURBINES * PARTS + part)
    }
}

type Object = (u32, [i32; 8]);

fn volts(s: usize) -> i32 {
    [24, 48][s % 2]
}

fn drive_type(u: usize, i: usize) -> u32 {
    [DRIVE, SERVO, if u % 2 == 0 { RESOLVER } else { SERVO }][i]
}

fn box_type(u: usize) -> u32 {
    [LITHIUM, BOX][u % 2]
}

fn drive(d: &mut Draw, t: u32, kind: i32, volts: i32) -> Object {
    let brake = if t >= SERVO { 150 } else { 0 };
    let lines = if t >= RESOLVER { 512 } else { 0 };
    (t, [10 + d.below(8) as i32, kind, 200 + d.below(50) as i32, volts, brake, lines, 0, 0])
}

fn battery_box(d: &mut Draw, t: u32, volts: i32) -> Object {
    (t, [70 + d.below(30) as i32, 110, d.below(12) as i32, volts, if t == LITHIUM { 20 } else { 0 }, 0, 0, 0])
}

fn encoder(d: &mut Draw, t: u32, kind: i32) -> Object {
    (t, [kind, 1024 << d.below(2), 2015 + d.below(10) as i32, if t == ABSOLUTE { 13 } else { 0 }, 0, 0, 0, 0])
}

// The fifteen objects of turbine u, in the order of their places.
fn turbine(d: &mut Draw, s: usize, u: usize) -> Vec<Object> {
    let mut out = vec![(TURBINE, [(100 * s + u) as i32, 1 + u as i32 % 3, 0, 0, 0, 0, 0, 0]), (ROTOR, [3, 10, 0, 0, 0, 0, 0, 0])];
    out.extend((0..3).map(|i| (BLADE, [100, 150 + d.below(40) as i32, 1 + i, 0, 0, 0, 0, 0])));
    out.push((CABINET, [80, volts(s), 4, 15, 0, 0, 0, 0]));
    let kind = |i: usize| ((u + i) % 3) as i32;
    out.extend((0..3).map(|i| drive(d, drive_type(u, i), kind(i), volts(s))).collect::<Vec<_>>());
    out.extend((0..3).map(|_| battery_box(d, box_type(u), volts(s))).collect::<Vec<_>>());
    out.extend((0..3).map(|i| encoder(d, if drive_type(u, i) == DRIVE { ENCODER } else { ABSOLUTE }, kind(i))).collect::<Vec<_>>());
    out
}

fn section(d: &mut Draw, s: usize) -> Vec<Object> {
    let mut out: Vec<Object> = (0..TURBINES).flat_map(|u| turbine(d, s, u)).collect();
    out.extend((0..3).map(|i| drive(d, DRIVE, i, volts(s))).collect::<Vec<_>>());
    out.push(battery_box(d, BOX, volts(s)));
    out.push(if s == STORE_IN { (STORE, [2, 200, 0, 0, 0, 0, 0, 0]) } else { encoder(d, ENCODER, 0) });
    out
}

// The links of turbine u: what is mounted, and which spares of the section would serve.
fn mounted(n: &Numbers, s: usize, u: usize, out: &mut BTreeSet<(u32, u32, u32)>) {
    let at = |part| n.part(s, u, part);
    out.extend([(CARRIES, at(AT_TURBINE), at(AT_ROTOR)), (HUB, at(AT_ROTOR), at(AT_CABINET))]);
    out.extend((1..3).map(|next| (NEAR, at(AT_TURBINE), n.part(s, u + next, AT_TURBINE))));
    for i in 0..3 {
        let (blade, drive, battery, encoder) = (at(AT_BLADE + i), at(AT_DRIVE + i), at(AT_BOX + i), at(AT_ENCODER + i));
        out.extend([(HOLDS, at(AT_ROTOR), blade), (FEEDS, at(AT_CABINET), drive), (TURNS, drive, blade), (READS, encoder, drive)]);
        out.extend([(KEEPS, battery, blade), (KEEPS, battery, at(AT_BLADE + (i + 1) % 3))]);
        out.extend([(HOUSES, at(AT_CABINET), battery), (WIRES, at(AT_CABINET), encoder)]);
        out.extend((0..5).map(|next| (FITS, drive, n.part(s, u + next, AT_CABINET))));
        out.extend((0..3).map(|next| (SUITS, battery, n.part(s, u + next, AT_CABINET))));
        out.extend((0..2).map(|next| (MATCHES, encoder, n.part(s, u + next, AT_DRIVE + i))));
    }
}

fn links(d: &mut Draw, n: &Numbers, s: usize) -> BTreeSet<(u32, u32, u32)> {
    let mut out = BTreeSet::new();
    for u in 0..TURBINES {
        mounted(n, s, u, &mut out);
    }
    let drives = (0..3).map(|i| n.place(s, TURBINES * PARTS + i));
    out.extend(drives.flat_map(|x| (0..4).map(move |u| (FITS, x, n.part(s, 2 * u, AT_CABINET)))));
    while out.len() < LINKS_IN_SECTION {
        let mut part = |at| n.part(s, d.below(TURBINES as u32) as usize, at + d.below(3) as usize);
        out.insert((MATCHES, part(AT_ENCODER), part(AT_DRIVE)));
    }
    out
}

// A park of some sections. Every rule holds.
pub fn wind_park(sections: &[usize]) -> Park {
    let n = Numbers::drawn();
    let (mut objects, mut all_links) = (BTreeMap::new(), BTreeSet::new());
    for s in sections {
        let mut d = Draw(77 + *s as u32);
        objects.extend(section(&mut d, *s).into_iter().enumerate().map(|(k, o)| (n.place(*s, k), o)));
        all_links.extend(links(&mut d, &n, *s));
    }
    Park {
        types: TYPES.to_vec(),
        floors: vec![],
        relationships: RELATIONSHIPS.to_vec(),
        rules: rules(),
        objects: objects.into_iter().map(|(id, (t, cells))| (id, t, cells)).collect(),
        links: all_links.into_iter().collect(),
    }
}

// The park for visits that take battery boxes out: rules about the charge that they hold, blades that one box is enough for, and floors or none.
pub fn battery_park(sections: &[usize], floors: &[(u32, u32)]) -> Park {
    let mut p = wind_park(sections);
    p.objects.iter_mut().filter(|o| o.1 == BLADE).for_each(|o| o.2[0] = 60);
    Park { rules: charge_rules(), floors: floors.to_vec(), ..p }
}

// The park for visits that make drives servo drives. The relationship of the two rules of servo drives starts at a type: at the servo drive, or at every drive.
pub fn servo_park(sections: &[usize], from: u32) -> Park {
    let mut p = wind_park(sections);
    p.relationships.push((from, ENCODER));
    Park { rules: servo_rules(), ..p }
}

// Charge, capacity and age of a battery box are never below 0.
pub const BATTERY_FLOORS: [(u32, u32); 3] = [(BOX, 0), (BOX, 1), (BOX, 2)];

pub type Event = [u32; 4];

pub struct Visit {
    pub name: &'static str,
    pub events: Vec<Event>,
}

// A crew at work: the register as it is now, and the events that it sends.
struct Crew {
    numbers: Numbers,
    objects: BTreeMap<u32, Object>,
    links: BTreeSet<(u32, u32, u32)>,
    draw: Draw,
    events: Vec<Event>,
    next_id: u32,
}

impl Crew {
    fn new(seed: u32) -> Crew {
        let p = wind_park(&SMALL);
        let objects = p.objects.iter().map(|o| (o.0, (o.1, o.2))).collect();
        Crew { numbers: Numbers::drawn(), objects, links: p.links.into_iter().collect(), draw: Draw(seed), events: vec![], next_id: 30_000 }
    }

    fn new_id(&mut self) -> u32 {
        self.next_id += 1;
        while self.numbers.0.contains(&self.next_id) {
            self.next_id += 1;
        }
        self.next_id
    }

    fn insert(&mut self, id: u32, t: u32) {
        self.objects.insert(id, (t, [0; 8]));
        self.events.push([0, id, t, 0]);
    }

    fn delete(&mut self, id: u32) -> Object {
        self.links.retain(|l| l.1 != id && l.2 != id);
        self.events.push([1, id, 0, 0]);
        self.objects.remove(&id).unwrap()
    }

    fn set(&mut self, id: u32, k: u32, value: i32) {
        self.objects.get_mut(&id).unwrap().1[k as usize] = value;
        self.events.push([2, id, k, value as u32]);
    }

    fn join(&mut self, l: (u32, u32, u32)) {
        self.links.insert(l);
        self.events.push([3, l.0, l.1, l.2]);
    }

    fn part(&mut self, l: (u32, u32, u32)) {
        self.links.remove(&l);
        self.events.push([4, l.0, l.1, l.2]);
    }

    fn special(&mut self, id: u32, t: u32) {
        self.objects.get_mut(&id).unwrap().0 = t;
        self.events.push([5, id, t, 0]);
    }

    fn general(&mut self, id: u32, t: u32) {
        let o = self.objects.get_mut(&id).unwrap();
        o.0 = t;
        o.1[TYPES[t as usize].1 as usize..].fill(0);
        self.events.push([6, id, t, 0]);
    }

    fn links_of(&self, id: u32) -> Vec<(u32, u32, u32)> {
        self.links.iter().copied().filter(|l| l.1 == id || l.2 == id).collect()
    }

    // A drive comes off its hub, its links parted one after the other, and another one goes in.
    fn exchange_drive(&mut self, s: usize, u: usize, i: usize, same_id: bool) {
        let old = self.numbers.part(s, u, AT_DRIVE + i);
        let links = self.links_of(old);
        for l in &links {
            self.part(*l);
        }
        self.put_in_place(old, &links, same_id);
    }

    // The same by a delete that takes the links along.
    fn scrap_drive(&mut self, s: usize, u: usize, i: usize, same_id: bool) {
        let old = self.numbers.part(s, u, AT_DRIVE + i);
        self.put_in_place(old, &self.links_of(old), same_id);
    }

    // A drive is deleted, and another one goes in: mounted by the old one's links, and fitting two cabinets.
    fn put_in_place(&mut self, old: u32, links: &[(u32, u32, u32)], same_id: bool) {
        let (t, cells) = self.delete(old);
        let new = if same_id { old } else { self.new_id() };
        self.insert(new, DRIVE);
        if t != DRIVE {
            self.special(new, t);
        }
        for k in 0..TYPES[t as usize].1 {
            self.set(new, k, cells[k as usize]);
        }
        let fits = links.iter().filter(|l| l.0 == FITS).take(2);
        for l in links.iter().filter(|l| [FEEDS, TURNS, READS].contains(&l.0)).chain(fits) {
            let end = |id| if id == old { new } else { id };
            self.join((l.0, end(l.1), end(l.2)));
        }
    }

    // A further battery box in a cabinet, for one of its blades.
    fn new_box(&mut self, s: usize, u: usize, i: usize) {
        let new = self.new_id();
        self.insert(new, BOX);
        if box_type(u) == LITHIUM {
            self.special(new, LITHIUM);
        }
        for (k, value) in [(0, 95), (1, 110), (3, volts(s))] {
            self.set(new, k, value);
        }
        let (cabinet, blade) = (self.numbers.part(s, u, AT_CABINET), self.numbers.part(s, u, AT_BLADE + i));
        for l in [(KEEPS, new, blade), (HOUSES, cabinet, new), (SUITS, new, cabinet)] {
            self.join(l);
        }
    }

    // What is read off and set at a turbine: charges most of all.
    fn reading(&mut self) {
        let (s, u, i) = (SMALL[self.draw.below(2) as usize], self.draw.below(8) as usize, self.draw.below(3) as usize);
        let at = |part| self.numbers.part(s, u, part);
        let (cabinet, battery, encoder) = (at(AT_CABINET), at(AT_BOX + i), at(AT_ENCODER + i));
        let value = self.draw.below(20) as i32;
        match self.events.len() % 5 {
            1 => self.set(cabinet, 0, 80 + value),
            3 => self.set(encoder, 1, 1024 + value),
            _ => self.set(battery, 0, 75 + value),
        }
    }

    // The visit's events, so many of them.
    fn sent(mut self, count: usize) -> Vec<Event> {
        assert!(self.events.len() <= count);
        while self.events.len() < count {
            self.reading();
        }
        self.events
    }
}

fn hub_exchange() -> Vec<Event> {
    let mut c = Crew::new(3);
    for (n, (u, i)) in [(0, 0), (0, 1), (0, 2), (3, 0), (3, 1), (5, 2), (6, 1)].into_iter().enumerate() {
        c.exchange_drive(SMALL[n % 2], u, i, n % 3 == 0);
    }
    for u in 0..4 {
        c.new_box(SMALL[u % 2], u, u % 3);
    }
    for u in [2, 7] {
        let servo = c.numbers.part(SMALL[0], u, AT_DRIVE + 1);
        c.general(servo, DRIVE);
    }
    c.sent(256)
}

fn drive_exchange() -> Vec<Event> {
    let mut c = Crew::new(2);
    c.exchange_drive(SMALL[0], 4, 1, false);
    c.new_box(SMALL[1], 2, 1);
    c.sent(40)
}

fn drives_scrapped() -> Vec<Event> {
    let mut c = Crew::new(4);
    c.scrap_drive(SMALL[0], 4, 1, false);
    c.scrap_drive(SMALL[1], 1, 2, true);
    c.new_box(SMALL[1], 2, 1);
    c.sent(40)
}

// The visits that are accepted, of 5, 40, 256 and again 40 events.
pub fn accepted() -> Vec<Visit> {
    vec![
        Visit { name: "readings", events: Crew::new(1).sent(5) },
        Visit { name: "a drive exchanged", events: drive_exchange() },
        Visit { name: "hubs exchanged", events: hub_exchange() },
        Visit { name: "drives scrapped with their links", events: drives_scrapped() },
    ]
}

// Readings, and then a battery box of so many of the smaller park's sixteen turbines comes out: deleted with its links, or parted from its cabinet and its blades.
fn boxes_out(readings: usize, turbines: usize, deleted: bool) -> Vec<Event> {
    let mut c = Crew::new(5);
    while c.events.len() < readings {
        c.reading();
    }
    for n in 0..turbines {
        let old = c.numbers.part(SMALL[n % 2], n / 2, AT_BOX + n % 3);
        if deleted {
            c.delete(old);
        } else {
            c.links_of(old).into_iter().filter(|l| l.0 != SUITS).for_each(|l| c.part(l));
        }
    }
    c.events
}

// The visits that take battery boxes out, of 1, 16, 48 and 40 events.
pub fn removals() -> Vec<Visit> {
    vec![
        Visit { name: "a battery box out", events: boxes_out(0, 1, true) },
        Visit { name: "a box out of each of 16 cabinets", events: boxes_out(0, 16, true) },
        Visit { name: "a box parted from each of 16", events: boxes_out(0, 16, false) },
        Visit { name: "24 readings, and a box out of each", events: boxes_out(24, 16, true) },
    ]
}

// Readings, and then a drive of so many of the smaller park's turbines becomes a servo drive, with a brake and an absolute encoder.
fn drives_to_servo(readings: usize, turbines: usize) -> Vec<Event> {
    let mut c = Crew::new(6);
    while c.events.len() < readings {
        c.reading();
    }
    for n in 0..turbines {
        let at = |part| c.numbers.part(SMALL[n % 2], n / 2, part);
        let (drive, encoder) = (at(AT_DRIVE), at(AT_ENCODER));
        c.special(encoder, ABSOLUTE);
        c.special(drive, SERVO);
        c.set(drive, 4, 150);
    }
    c.events
}

// The visits that make drives servo drives, of 3, 48 and 72 events.
pub fn specials() -> Vec<Visit> {
    vec![
        Visit { name: "a drive made a servo drive", events: drives_to_servo(0, 1) },
        Visit { name: "a drive of each of 16 turbines", events: drives_to_servo(0, 16) },
        Visit { name: "24 readings, and a drive of each", events: drives_to_servo(24, 16) },
    ]
}

// A visit of 40 events with another last one.
fn ending(name: &'static str, last: Event) -> Visit {
    let mut events = drive_exchange();
    events[39] = last;
    Visit { name, events }
}

// A visit without events, which looks at everything.
pub fn inspection(name: &'static str) -> Visit {
    Visit { name, events: vec![] }
}

pub fn broken() -> Vec<Visit> {
    let n = Numbers::drawn();
    let at = |part| n.part(SMALL[1], 6, part);
    vec![
        ending("broken: currents above the rating", [2, at(AT_DRIVE), 0, 70]),
        ending("broken: an encoder of another kind", [2, at(AT_ENCODER + 1), 0, 7]),
        ending("broken: a blade without its charge", [2, at(AT_BOX + 2), 0, 20]),
        ending("broken: a drive without a cabinet", [4, FEEDS, at(AT_CABINET), at(AT_DRIVE + 2)]),
        ending("broken: a cabinet scrapped", [1, at(AT_CABINET), 0, 0]),
    ]
}

pub fn refused() -> Vec<Visit> {
    let n = Numbers::drawn();
    let at = |part| n.part(SMALL[1], 6, part);
    vec![
        ending("refused: no such object", [2, 1 + *n.0.last().unwrap(), 0, 1]),
        ending("refused: a link that is there", [3, FEEDS, at(AT_CABINET), at(AT_DRIVE)]),
        ending("refused: a brake on a plain drive", [2, at(AT_DRIVE), 4, 1]),
        ending("refused: a drive deleted twice", [1, n.part(SMALL[0], 4, AT_DRIVE + 1), 0, 0]),
    ]
}

// Ids of 31 bits in the place of those of parks and visits, in the same order, so that every row stays where it is.
pub struct Renumbering(BTreeMap<u32, u32>);

// The places of the ids in an event, by its kind.
fn ids_in(e: &Event) -> std::ops::Range<usize> {
    if e[0] == 3 || e[0] == 4 { 2..4 } else { 1..2 }
}

impl Renumbering {
    pub fn new(parks: &[Park], visits: &[Visit]) -> Renumbering {
        let mut old: BTreeSet<u32> = parks.iter().flat_map(|p| p.objects.iter().map(|o| o.0)).collect();
        old.extend(visits.iter().flat_map(|v| &v.events).flat_map(|e| e[ids_in(e)].to_vec()));
        let new = numbers(Ids::Drawn(11, LARGEST_ID), old.len());
        Renumbering(old.into_iter().zip(new).collect())
    }

    pub fn park(&self, mut p: Park) -> Park {
        p.objects.iter_mut().for_each(|o| o.0 = self.0[&o.0]);
        p.links.iter_mut().for_each(|l| *l = (l.0, self.0[&l.1], self.0[&l.2]));
        p
    }

    pub fn visit(&self, v: &Visit) -> Visit {
        let mut events = v.events.clone();
        for e in &mut events {
            let at = ids_in(e);
            e[at].iter_mut().for_each(|id| *id = self.0[id]);
        }
        Visit { name: v.name, events }
    }
}
