// The batch check beside a plain incremental one, full checks and SQLite, in one run: the same parks, rules and visits, the same answers, times,
// ratios and the bodies that are evaluated.
mod drawn;
mod fitters;
mod incremental;
#[allow(dead_code)]
mod library;
mod literal;
#[allow(dead_code)]
mod park;
mod plain;
#[cfg(sqlite)]
mod sqlite;
mod visits;

use incremental::{write_back, Answer, Book, Lists};
use library::{call, check, full_check, median, rounds, run, Call};
use park::{Form, Park, Tables};
use plain::Plain;
use visits::{Event, Visit};

// Two sizes of the park, with the rows lent in proportion.
const SIZES: [(&[usize], (usize, usize)); 2] = [(&visits::SMALL, (256, 1024)), (&visits::LARGE, (1024, 4096))];
const LIST_WORDS: usize = 65_536; // for every pair that there can be
const DRAWN: u32 = 10_000;

// Lent tables with a batch's scratch and list, and the register to start from.
#[derive(Clone)]
struct Lent {
    tables: Tables,
    used: (u32, u32),
    scratch: (Vec<u32>, Vec<u32>),
    list: Vec<u32>,
    fresh: (Vec<u32>, Vec<u32>),
}

impl Lent {
    fn new(p: &Park, room: (usize, usize), words: usize) -> Lent {
        let mut tables = park::tables(p);
        tables.objects.resize(10 * room.0, 0);
        tables.links.resize(3 * room.1, 0);
        let fresh = (tables.objects.clone(), tables.links.clone());
        let scratch = (vec![7; 10 * room.0], vec![7; 3 * room.1]);
        Lent { tables, used: (p.objects.len() as u32, p.links.len() as u32), scratch, list: vec![7; words], fresh }
    }

    fn restore(&mut self) {
        self.tables.objects.copy_from_slice(&self.fresh.0);
        self.tables.links.copy_from_slice(&self.fresh.1);
    }

    fn proved(&mut self, events: &[Event]) -> [u32; 6] {
        library::batch(&mut self.tables, self.used, events, &mut self.scratch, &mut self.list)
    }

    // The plain check of the same tables: lists made, the visit, and where it is accepted the tables written.
    fn built(&mut self, book: &Book, lists: &mut Lists, events: &[Event]) -> Answer {
        let mut used = (self.used.0 as usize, self.used.1 as usize);
        if let Err(refused) = lists.build(book, &self.tables.objects[..10 * used.0], &self.tables.links[..3 * used.1]) {
            return refused;
        }
        let room = (self.tables.objects.len() / 10, self.tables.links.len() / 3);
        let answer = lists.visit(book, room, events, self.list.len());
        if answer == Answer::Accepted {
            write_back(book, events, &mut self.tables.objects, &mut self.tables.links, &mut used);
        }
        answer
    }
}

// What a check leaves: its answer, its list, the used rows, and the tables to their last row.
#[derive(PartialEq, Debug)]
struct Left {
    answer: Answer,
    pairs: Vec<(u32, u32)>,
    used: (usize, usize),
    objects: Vec<u32>,
    links: Vec<u32>,
}

struct Case<'a> {
    park: &'a Park,
    room: (usize, usize),
    events: &'a [Event],
    words: usize,
}

fn by_library(c: &Case) -> Left {
    let mut lent = Lent::new(c.park, c.room, c.words);
    let [kind, x, y, pairs, objects, links] = lent.proved(c.events);
    let answer = match kind {
        0 => Answer::Accepted,
        1 => Answer::Broken(x, y),
        _ => Answer::Refused(x, y),
    };
    let (list, rest) = lent.list.split_at(2 * pairs as usize);
    assert!(rest.iter().all(|w| *w == 7), "words past the list are as they were");
    let pairs = list.chunks(2).map(|p| (p[0], p[1])).collect();
    Left { answer, pairs, used: (objects as usize, links as usize), objects: lent.tables.objects, links: lent.tables.links }
}

fn by_lists(c: &Case) -> Left {
    let (book, mut lists, mut lent) = (Book::new(c.park), Lists::new(), Lent::new(c.park, c.room, c.words));
    let answer = lent.built(&book, &mut lists, c.events);
    let used = if answer == Answer::Accepted { lists.used() } else { (c.park.objects.len(), c.park.links.len()) };
    Left { answer, pairs: lists.pairs, used, objects: lent.tables.objects, links: lent.tables.links }
}

fn by_letter(c: &Case) -> Left {
    let found = literal::batch(c.park, c.room, c.events, c.words);
    let lent = Lent::new(&found.register, c.room, 0);
    let used = (lent.used.0 as usize, lent.used.1 as usize);
    Left { answer: found.answer, pairs: found.pairs, used, objects: lent.tables.objects, links: lent.tables.links }
}

// The three checks of one case, and whether proved and plain differ, and plain and the letter of document 01.
fn compared(c: &Case) -> (Left, [bool; 2]) {
    let (proved, plain, letter) = (by_library(c), by_lists(c), by_letter(c));
    let differ = [proved != plain, plain != letter];
    if differ != [false; 2] {
        println!("differ: {:?} {:?} {:?} on {:?}", proved.answer, plain.answer, letter.answer, c.events);
        println!("{:?}\n{:?}\n{:?}", proved.pairs, plain.pairs, letter.pairs);
    }
    (proved, differ)
}

fn tell(what: &str, found: &[(Left, [bool; 2])]) {
    let count = |test: &dyn Fn(&Answer) -> bool| found.iter().filter(|(left, _)| test(&left.answer)).count();
    let (accepted, broken) = (count(&|a| *a == Answer::Accepted), count(&|a| matches!(a, Answer::Broken(..))));
    let pairs: usize = found.iter().map(|(left, _)| left.pairs.len()).sum();
    println!("{} {what}: {accepted} accepted, {broken} broken, {} refused; {pairs} pairs listed", found.len(), found.len() - accepted - broken);
    let [plain, letter] = [0, 1].map(|i| found.iter().filter(|(_, differ)| differ[i]).count());
    println!("  disagreements in answer, list or register: proved and plain {plain}, plain and document 01 by the letter {letter}");
}

fn agree_on_drawn() {
    let found: Vec<_> = (1..=DRAWN)
        .map(|seed| {
            let park = drawn::book(seed);
            let events = drawn::batch(&park, seed + 1_000_000);
            // some lists are too short, some registers faulty
            let words = if seed % 16 == 0 { 5 } else { 512 };
            let park = if seed % 16 == 1 { drawn::damaged(park, seed) } else { park };
            compared(&Case { park: &park, room: drawn::ROOM, events: &events, words })
        })
        .collect();
    tell("drawn books, registers and batches", &found);
}

// Every drawn register inspected: in most of them some rule is broken. Where it is not refused, the answer is a plain full check's and the list every pair.
fn agree_on_inspections() {
    let mut apart = 0;
    let mut inspected = |seed: u32| {
        let park = drawn::book(seed);
        let all = 2 * all_pairs(&park);
        // some lists are just long enough or a word too short, some registers faulty
        let words = if seed % 16 == 0 { all } else { 512 };
        let words = if seed % 16 == 2 { all.saturating_sub(1) } else { words };
        let park = if seed % 16 == 1 { drawn::damaged(park, seed) } else { park };
        let found = compared(&Case { park: &park, room: drawn::ROOM, events: &[], words });
        let (answer, short) = (found.0.answer, seed % 16 == 2 && all > 0);
        apart += usize::from(match answer {
            Answer::Refused(14, 0) => !short,
            Answer::Refused(5, _) => seed % 16 != 1,
            _ => short || answer != full_answer(&park) || found.0.pairs.len() != all_pairs(&park),
        });
        found
    };
    let found: Vec<_> = (1..=DRAWN).map(&mut inspected).collect();
    tell("drawn registers inspected", &found);
    println!("  other than the full check, every pair, or a refusal that is due: {apart}");
}

fn full_answer(p: &Park) -> Answer {
    Plain::new(p).full_check(p).map_or(Answer::Accepted, |(rule, id)| Answer::Broken(rule, id))
}

fn agree_on_visits(parks: &[Park], visits: &[Visit]) {
    let mut found = vec![];
    for (park, (_, room)) in parks.iter().zip(SIZES) {
        found.extend(visits.iter().map(|v| compared(&Case { park, room, events: &v.events, words: LIST_WORDS })));
    }
    tell("visits on the two parks", &found);
}

// The pairs that a full check evaluates: for each rule the objects of its context type.
fn all_pairs(p: &Park) -> usize {
    let plain = Plain::new(p);
    p.rules.iter().map(|(context, _)| plain.kinds.iter().filter(|k| plain.under(**k, *context)).count()).sum()
}

// A visit to a park, with what the timed calls start from.
struct Timed<'a> {
    park: &'a Park,
    lent: Lent,
    book: Book,
    visit: &'a Visit,
    pairs: usize,
}

fn timed<'a>(parks: &'a [Park], visits: &'a [Visit]) -> Vec<Timed<'a>> {
    let mut out = vec![];
    for (park, (_, room)) in parks.iter().zip(SIZES) {
        for visit in visits {
            let left = by_library(&Case { park, room, events: &visit.events, words: LIST_WORDS });
            out.push(Timed { park, lent: Lent::new(park, room, LIST_WORDS), book: Book::new(park), visit, pairs: left.pairs.len() });
        }
    }
    out
}

impl Timed<'_> {
    fn name(&self) -> String {
        format!("{:7}  {:5}  {:37}  {:6}", self.park.objects.len(), self.park.links.len(), self.visit.name, self.visit.events.len())
    }

    fn restore(&self) -> Call<'_> {
        let mut lent = self.lent.clone();
        call(move || lent.restore())
    }

    fn proved(&self) -> Call<'_> {
        let mut lent = self.lent.clone();
        call(move || {
            lent.restore();
            lent.proved(&self.visit.events)
        })
    }

    fn built(&self) -> Call<'_> {
        let (mut lent, mut lists) = (self.lent.clone(), Lists::new());
        call(move || {
            lent.restore();
            lent.built(&self.book, &mut lists, &self.visit.events)
        })
    }

    // The lists are kept, and brought back by the visit's own undoing.
    fn kept(&self) -> Call<'_> {
        let (lent, mut lists) = (&self.lent, Lists::new());
        let room = (lent.tables.objects.len() / 10, lent.tables.links.len() / 3);
        lists.build(&self.book, &lent.tables.objects[..10 * lent.used.0 as usize], &lent.tables.links[..3 * lent.used.1 as usize]).unwrap();
        call(move || {
            let answer = lists.visit(&self.book, room, &self.visit.events, LIST_WORDS);
            lists.take_back();
            answer
        })
    }
}

// A park's calls whose differences are the parts of a batch check.
struct Parts<'a> {
    timed: &'a Timed<'a>,
    tables: Tables,
    without_rules: Tables,
    after: Tables, // with the register after the visit
}

impl Parts<'_> {
    fn new<'a>(timed: &'a Timed<'a>) -> Parts<'a> {
        let tables = park::tables(timed.park);
        let (mut lent, mut after) = (timed.lent.clone(), tables.clone());
        let [.., objects, links] = lent.proved(&timed.visit.events);
        after.objects = lent.tables.objects[..10 * objects as usize].to_vec();
        after.links = lent.tables.links[..3 * links as usize].to_vec();
        let without_rules = Tables { rules: vec![], bodies: vec![], ..tables.clone() };
        assert_eq!(full_check(&without_rules), [0; 3]);
        Parts { timed, tables, without_rules, after }
    }

    fn ran<'a>(&'a self, events: &'a [Event]) -> Call<'a> {
        let (t, mut scratch) = (&self.timed.lent, self.timed.lent.scratch.clone());
        call(move || run(&t.tables, t.used, events.as_flattened(), &mut scratch))
    }

    fn calls(&self) -> Vec<Call<'_>> {
        let (t, events) = (self.timed, &self.timed.visit.events);
        vec![
            t.restore(),
            t.proved(),
            call(|| full_check(&self.without_rules)),
            call(|| check(&self.without_rules)),
            call(|| check(&self.tables)),
            self.ran(&[]),
            self.ran(events),
        ]
    }
}

const HEAD: &str = "objects  links  visit                                  events";

// Times of the proved and the plain incremental check.
fn beside_plain(cases: &[Timed]) {
    let figures = rounds(&mut cases.iter().map(|c| vec![c.restore(), c.proved(), c.built(), c.kept()]).collect::<Vec<_>>());
    println!("\n{HEAD}  pairs  proved (us)  plain, lists built (us)  plain, lists kept (us)  proved / built  proved / kept");
    for (c, f) in cases.iter().zip(&figures) {
        let [proved, built] = [1, 2].map(|i| median(f, |r| r[i] - r[0]));
        let kept = median(f, |r| r[3]);
        let (to_built, to_kept) = (median(f, |r| (r[1] - r[0]) / (r[2] - r[0])), median(f, |r| (r[1] - r[0]) / r[3]));
        println!("{}  {:5}  {proved:11.1}  {built:23.1}  {kept:22.1}  {to_built:14.2}  {to_kept:13.2}", c.name(), c.pairs);
    }
}

// The batch check and full checks of the same parks, and the bodies that each evaluates. Without a batch check a caller would run the events and
// check the register after them.
fn beside_full(cases: &[Timed]) {
    let parts: Vec<Parts> = cases.iter().map(Parts::new).collect();
    let mut groups: Vec<Vec<Call>> = vec![];
    for (c, p) in cases.iter().zip(&parts) {
        let mut ran = p.ran(&c.visit.events);
        let both = call(move || {
            ran();
            full_check(&p.after)
        });
        groups.push(vec![c.restore(), c.proved(), call(|| full_check(&p.tables)), call(|| Plain::new(c.park).full_check(c.park)), both]);
    }
    let figures = rounds(&mut groups);
    println!("\n{HEAD}  bodies, batch  bodies, full  one in  batch (us)  full (us)  plain full (us)  run and full (us)  batch / full  batch / run and full");
    for (c, f) in cases.iter().zip(&figures) {
        let all = all_pairs(c.park);
        let [batch, full, plain, both] = [median(f, |r| r[1] - r[0]), median(f, |r| r[2]), median(f, |r| r[3]), median(f, |r| r[4])];
        let [to_full, to_both] = [2, 4].map(|i| median(f, |r| (r[1] - r[0]) / r[i]));
        let share = all as f64 / c.pairs as f64;
        print!("{}  {:13}  {all:12}  {share:6.1}  {batch:10.1}  {full:9.1}  {plain:15.1}", c.name(), c.pairs);
        println!("  {both:17.1}  {to_full:12.2}  {to_both:20.2}");
    }
}

// The parks as a visit leaves them that breaks a rule, whatever a check would say of it.
fn broken_parks(parks: &[Park], visit: &Visit) -> Vec<Park> {
    let after = |p: &Park| Park { rules: p.rules.clone(), ..visit.events.iter().fold(literal::copy(p), |now, e| literal::done(&now, *e)) };
    parks.iter().map(after).collect()
}

// The bodies that a search over all pairs evaluates: up to the first that is broken.
fn searched(left: &Left) -> usize {
    match left.answer {
        Answer::Broken(rule, id) => 1 + left.pairs.iter().position(|p| *p == (rule, id)).unwrap(),
        _ => left.pairs.len(),
    }
}

// Inspections: the batch check without events beside the full check of the same tables, and the plain checks of both kinds. Both evaluate the same bodies;
// an inspection writes the list of all pairs besides.
fn inspections(cases: &[Timed]) {
    let tables: Vec<Tables> = cases.iter().map(|c| park::tables(c.park)).collect();
    let mut groups: Vec<Vec<Call>> = vec![];
    for (c, t) in cases.iter().zip(&tables) {
        groups.push(vec![c.restore(), c.proved(), call(|| full_check(t)), c.built(), c.kept(), call(|| Plain::new(c.park).full_check(c.park))]);
    }
    let figures = rounds(&mut groups);
    print!("\n{HEAD}  pairs  bodies, inspection  bodies, full  inspection (us)  full (us)  plain, lists built (us)  plain, lists kept (us)");
    println!("  plain full (us)  inspection / full  inspection / built  inspection / kept");
    for (c, f) in cases.iter().zip(&figures) {
        let left = by_library(&Case { park: c.park, room: SIZES[1].1, events: &c.visit.events, words: LIST_WORDS });
        assert_eq!(left.answer, full_answer(c.park), "{}", c.visit.name);
        let bodies = searched(&left);
        let [batch, built] = [1, 3].map(|i| median(f, |r| r[i] - r[0]));
        let [full, kept, plain] = [2, 4, 5].map(|i| median(f, |r| r[i]));
        let [to_full, to_kept] = [2, 4].map(|i| median(f, |r| (r[1] - r[0]) / r[i]));
        let to_built = median(f, |r| (r[1] - r[0]) / (r[3] - r[0]));
        print!("{}  {:5}  {bodies:18}  {:12}  {batch:15.1}  {full:9.1}  {built:23.1}  {kept:22.1}", c.name(), c.pairs, evaluated(c.park));
        println!("  {plain:15.1}  {to_full:17.2}  {to_built:18.2}  {to_kept:17.2}");
    }
}

// The bodies that a full check evaluates.
fn evaluated(p: &Park) -> usize {
    let (plain, mut count) = (Plain::new(p), 0);
    for (context, body) in &p.rules {
        for x in (0..plain.ids.len()).filter(|x| plain.under(plain.kinds[*x], *context)) {
            count += 1;
            if !plain.truth(body, &mut vec![x]) {
                return count;
            }
        }
    }
    count
}

#[cfg(sqlite)]
fn beside_sqlite(cases: &[Timed], broken: &[Timed]) {
    println!("\nSQLite {}, in memory, {} views", sqlite::version(), cases[0].park.rules.len());
    let databases: Vec<sqlite::Database> = cases.iter().map(|c| sqlite::Database::new(c.park)).collect();
    for c in cases.iter().chain(broken) {
        let rule = match by_library(&Case { park: c.park, room: SIZES[1].1, events: &c.visit.events, words: LIST_WORDS }).answer {
            Answer::Broken(rule, _) => Some(rule),
            _ => None,
        };
        assert_eq!(sqlite::Database::new(c.park).visit(&c.visit.events, false), rule, "{}", c.visit.name);
    }
    let mut groups: Vec<Vec<Call>> = vec![];
    for (c, d) in cases.iter().zip(&databases) {
        groups.push(vec![c.restore(), c.proved(), call(move || d.visit(&c.visit.events, false)), call(move || d.visit(&c.visit.events, true))]);
    }
    let figures = rounds(&mut groups);
    println!("{HEAD}  proved (us)  SQLite, queries kept (us)  / proved  SQLite, queries prepared (us)  / proved");
    for (c, f) in cases.iter().zip(&figures) {
        let [proved, kept, prepared] = [median(f, |r| r[1] - r[0]), median(f, |r| r[2]), median(f, |r| r[3])];
        let [to_kept, to_prepared] = [2, 3].map(|i| median(f, |r| r[i] / (r[1] - r[0])));
        println!("{}  {proved:11.1}  {kept:25.0}  {to_kept:8.1}  {prepared:29.0}  {to_prepared:8.1}", c.name());
    }
}

#[cfg(not(sqlite))]
fn beside_sqlite(_: &[Timed], _: &[Timed]) {
    println!("\nSQLite is not here: left out");
}

// The parts of a batch check from the times of a park's seven calls.
const PARTS: [(&str, fn(&[f64]) -> f64); 10] = [
    ("the batch check", |r| r[1] - r[0]),
    ("- validation of schema and register", |r| r[3]),
    ("- index", |r| r[2] - r[3]),
    ("- validation of the rules", |r| r[4] - r[3]),
    ("- copy to the scratch", |r| r[5] - r[4]),
    ("- the events", |r| r[6] - r[5]),
    ("- the rest", |r| r[1] - r[0] - (r[2] - r[3]) - r[6]),
    ("the full check without rules", |r| r[2]),
    ("the batch check less that", |r| r[1] - r[0] - r[2]),
    ("and less the validation of the rules", |r| r[1] - r[0] - r[2] - (r[4] - r[3])),
];

// The park with the rules that say nothing of all objects of a type, which cost what there are of them.
fn without_all(p: &Park) -> Park {
    let over_all = |f: &Form| {
        let mut rows = vec![];
        park::write(f, &mut rows);
        rows.chunks(4).any(|row| row[0] == 21)
    };
    Park { rules: p.rules.iter().filter(|r| !over_all(&r.1)).cloned().collect(), ..literal::copy(p) }
}

// The same visit on both parks, part by part.
fn by_parts(cases: &[Timed]) {
    let visits = cases.len() / 2;
    let parts: Vec<Parts> = cases.iter().map(Parts::new).collect();
    let mut groups: Vec<Vec<Call>> = (0..visits).map(|v| parts[v].calls().into_iter().chain(parts[visits + v].calls()).collect()).collect();
    let figures = rounds(&mut groups);
    for (v, f) in figures.iter().enumerate() {
        let [small, large] = [v, visits + v].map(|i| cases[i].park.objects.len());
        let title = format!("the same {} events, {} rules", cases[v].visit.events.len(), cases[v].park.rules.len());
        println!("\n{title:38}  {small:4} objects (us)  {large:4} objects (us)   ratio");
        for (name, part) in PARTS {
            let (x, y, ratio) = (median(f, |r| part(&r[..7])), median(f, |r| part(&r[7..])), median(f, |r| part(&r[7..]) / part(&r[..7])));
            println!("{name:38}  {x:17.1}  {y:17.1}  {ratio:6.2}");
        }
    }
}

// The same visits with ids of 16 and of 31 bits: the same objects, links and rows.
fn by_ids(near: &[Timed], far: &[Timed]) {
    let mut groups: Vec<Vec<Call>> = near.iter().zip(far).map(|(x, y)| vec![x.restore(), x.proved(), y.restore(), y.proved()]).collect();
    let figures = rounds(&mut groups);
    println!("\n{HEAD}  ids of 16 bits (us)  ids of 31 bits (us)  31 / 16");
    for (c, f) in near.iter().zip(&figures) {
        let [short, long] = [0, 2].map(|i| median(f, |r| r[i + 1] - r[i]));
        println!("{}  {short:19.1}  {long:19.1}  {:7.2}", c.name(), median(f, |r| (r[3] - r[2]) / (r[1] - r[0])));
    }
}

// The same visits to parks of two schemas, one of which spares looks: the bodies that are evaluated, and the time.
fn by_schema(names: [&str; 2], first: &[Timed], second: &[Timed]) {
    let mut groups: Vec<Vec<Call>> = first.iter().zip(second).map(|(x, y)| vec![x.restore(), x.proved(), y.restore(), y.proved()]).collect();
    let figures = rounds(&mut groups);
    let [a, b] = names;
    let heads = [format!("bodies, {a}"), format!("bodies, {b}"), format!("{a} (us)"), format!("{b} (us)"), format!("{b} / {a}")];
    let widths = heads.each_ref().map(String::len);
    println!("\n{HEAD}  {}", heads.join("  "));
    for ((x, y), f) in first.iter().zip(second).zip(&figures) {
        let times = [0, 2].map(|i| format!("{:.1}", median(f, |r| r[i + 1] - r[i])));
        let ratio = format!("{:.2}", median(f, |r| (r[3] - r[2]) / (r[1] - r[0])));
        let cells = [x.pairs.to_string(), y.pairs.to_string(), times[0].clone(), times[1].clone(), ratio];
        let row: Vec<String> = cells.iter().zip(widths).map(|(cell, width)| format!("{cell:>width$}")).collect();
        println!("{}  {}", x.name(), row.join("  "));
    }
}

fn main() {
    let parks: Vec<Park> = SIZES.iter().map(|(sections, _)| visits::wind_park(sections)).collect();
    let battery_parks = |floors| SIZES.iter().map(|(sections, _)| visits::battery_park(sections, floors)).collect();
    let batteries: [Vec<Park>; 2] = [&[][..], &visits::BATTERY_FLOORS].map(battery_parks);
    let servo_parks = |from| SIZES.iter().map(|(sections, _)| visits::servo_park(sections, from)).collect();
    let servos: [Vec<Park>; 2] = [fitters::DRIVE, fitters::SERVO].map(servo_parks);
    for p in parks.iter().chain(batteries.iter().flatten()).chain(servos.iter().flatten()) {
        assert_eq!(full_check(&park::tables(p)), [0; 3]);
        assert_eq!(Plain::new(p).full_check(p), None);
    }
    let kinds = [visits::accepted(), visits::broken(), visits::refused()];
    agree_on_drawn();
    agree_on_inspections();
    for visits in &kinds {
        agree_on_visits(&parks, visits);
    }
    let new = visits::Renumbering::new(&parks, &kinds[0]);
    let far_parks: Vec<Park> = SIZES.iter().map(|(sections, _)| new.park(visits::wind_park(sections))).collect();
    let far_visits: Vec<Visit> = kinds[0].iter().map(|v| new.visit(v)).collect();
    agree_on_visits(&far_parks, &far_visits);
    let removals = visits::removals();
    for parks in &batteries {
        agree_on_visits(parks, &removals);
    }
    let specials = visits::specials();
    for parks in &servos {
        agree_on_visits(parks, &specials);
    }
    // the parks as they are, and with a rule broken that stands early in the book and one that stands late
    let good = SIZES.iter().map(|(sections, _)| visits::wind_park(sections)).collect();
    let names = ["inspection, all holds", "inspection, currents above the rating", "inspection, a blade without charge"];
    let registers: [Vec<Park>; 3] = [good, broken_parks(&parks, &kinds[1][0]), broken_parks(&parks, &kinds[1][2])];
    let inspected = names.map(|name| [visits::inspection(name)]);
    for (parks, visit) in registers.iter().zip(&inspected) {
        agree_on_visits(parks, visit);
    }
    let [accepted, broken, refused] = kinds.each_ref().map(|visits| timed(&parks, visits));
    beside_plain(&accepted);
    beside_plain(&broken);
    beside_plain(&refused);
    by_ids(&accepted, &timed(&far_parks, &far_visits));
    beside_full(&accepted);
    inspections(&registers.iter().zip(&inspected).flat_map(|(parks, visit)| timed(parks, visit)).collect::<Vec<_>>());
    beside_sqlite(&accepted, &broken);
    by_parts(&accepted);
    by_parts(&timed(&parks.iter().map(without_all).collect::<Vec<_>>(), &kinds[0]));
    by_schema(["no floors", "floors"], &timed(&batteries[0], &removals), &timed(&batteries[1], &removals));
    by_schema(["drive", "servo drive"], &timed(&servos[0], &specials), &timed(&servos[1], &specials));
}
