// The wrapper of `checker.rs` beside document 01 taken by the letter (`bench/literal.rs`) and a plain full check (`bench/plain.rs`).
mod anything;
mod checker;
#[path = "../bench/drawn.rs"]
mod drawn;
#[path = "../bench/fitters.rs"]
mod fitters;
#[allow(dead_code)]
#[path = "../bench/incremental.rs"]
mod incremental;
mod lent;
#[path = "../bench/literal.rs"]
mod literal;
#[allow(dead_code)]
#[path = "../bench/park.rs"]
mod park;
#[path = "../bench/plain.rs"]
mod plain;
#[allow(dead_code)]
#[path = "../bench/spelling.rs"]
mod spelling;
#[allow(dead_code)]
#[path = "../bench/visits.rs"]
mod visits;

use checker::{Event, EventType, Park, Refusal, RefusalNumber, Room, Verdict};
use park::Park as Plain;

const DRAWN: u32 = 5_000;
const DRAWN_ROOM: Room = Room { objects: drawn::ROOM.0, links: drawn::ROOM.1, pairs: 256 };

type Answer = Result<Verdict, Refusal>;

fn refused(number: u32, place: u32) -> Refusal {
    Refusal { number: number.into(), place }
}

#[derive(Default)]
struct Tally {
    cases: usize,
    accepted: usize,
    broken: usize,
    refused: usize,
    disagreements: usize,
}

impl Tally {
    fn count(&mut self, answer: Answer) {
        self.cases += 1;
        *match answer {
            Ok(Verdict::Accepted) => &mut self.accepted,
            Ok(Verdict::Broken { .. }) => &mut self.broken,
            Err(_) => &mut self.refused,
        } += 1;
    }

    fn agree(&mut self, what: &str, same: bool) {
        if !same {
            self.disagreements += 1;
            println!("case {}: {what} differs", self.cases);
        }
    }

    // A text or a register that is refused.
    fn refusal<T>(&mut self, what: &str, found: Result<T, Refusal>, (number, place): (u32, u32)) {
        self.count(Err(refused(number, place)));
        self.agree(what, found.err() == Some(refused(number, place)));
    }

    fn tell(&self, what: &str) {
        print!("{} {what}: {} accepted, {} broken, {} refused;", self.cases, self.accepted, self.broken, self.refused);
        println!(" disagreements {}", self.disagreements);
    }
}

fn told(answer: incremental::Answer) -> Answer {
    match answer {
        incremental::Answer::Accepted => Ok(Verdict::Accepted),
        incremental::Answer::Broken(rule, object) => Ok(Verdict::Broken { rule, object }),
        incremental::Answer::Refused(number, place) => Err(refused(number, place)),
    }
}

// The rules of a park as lines of a text, whose numbers have signs.
fn rule_lines(park: &Park) -> String {
    park.rules().enumerate().map(|(n, rule)| format!("(rule {n} {} {})\n", rule.context as i32, rule.body)).collect()
}

fn rule_lines_in(text: &[u8]) -> String {
    let lines = text.split_inclusive(|byte| *byte == b'\n').filter(|line| line.starts_with(b"(rule "));
    lines.map(String::from_utf8_lossy).collect()
}

// The park's book, register and text are the plain one's.
fn same_park(t: &mut Tally, lent: &Park, plain: &Plain) {
    t.agree("the types", lent.types().map(|of| (of.parent, of.cells)).eq(plain.types.iter().copied()));
    t.agree("the relationships", lent.relationships().map(|of| (of.source, of.target)).eq(plain.relationships.iter().copied()));
    t.agree("the rules", lent.rules().eq(lent::rules(plain)));
    t.agree("the floors", lent.floors().map(|f| (f.type_number, f.cell)).eq(plain.floors.iter().copied()));
    t.agree("the objects", lent.objects().eq(lent::objects(plain)));
    t.agree("the links", lent.links().eq(lent::links(plain)));
    let text = spelling::text(plain).into_bytes();
    t.agree("the rules in brackets", rule_lines(lent) == rule_lines_in(&text));
    let expected = if text.len() > 65_536 { Err(refused(2, 0)) } else { Ok(text) };
    t.agree("the text", lent.text(&[]) == expected);
}

// The register that the events leave, by a plain run of them, unless an event is refused.
fn ran(plain: &Plain, answer: incremental::Answer, rows: &[[u32; 4]]) -> Result<(Vec<checker::Object>, Vec<checker::Link>), Refusal> {
    match answer {
        incremental::Answer::Refused(number, place) if number != 14 => Err(refused(number, place)),
        _ => {
            let end = rows.iter().fold(literal::copy(plain), |now, row| literal::done(&now, *row));
            Ok((lent::objects(&end), lent::links(&end)))
        }
    }
}

// One visit to a park. What is left of the plain one is returned.
fn visit(t: &mut Tally, lent: &mut Park, plain: &Plain, room: Room, rows: &[[u32; 4]]) -> Plain {
    let rows: Vec<[u32; 4]> = rows.iter().filter(|row| lent::event(row).is_some()).copied().collect();
    let expected = literal::batch(plain, (room.objects, room.links), &rows, 2 * room.pairs);
    let events = lent::events(&rows);
    t.agree("the run", lent.run(&events) == ran(plain, expected.answer, &rows));
    let found = lent.check(&events);
    t.count(found);
    t.agree("the answer", found == told(expected.answer));
    t.agree("the list", lent.pairs().map(|p| (p.rule, p.object)).eq(expected.pairs.iter().copied()));
    let after = Plain { rules: plain.rules.clone(), ..expected.register };
    same_park(t, lent, &after);
    let full = plain::Plain::new(&after).full_check(&after);
    t.agree("the full check", lent.full() == Ok(full.map_or(Verdict::Accepted, |(rule, object)| Verdict::Broken { rule, object })));
    after
}

// A visit without events. Unless the list is too short for every pair, its answer is the full check's and its list all of them, whatever is broken; the park stays.
fn inspection(t: &mut Tally, lent: &mut Park, plain: &Plain, room: Room) {
    let of = plain::Plain::new(plain);
    let every: usize = plain.rules.iter().map(|(context, _)| of.kinds.iter().filter(|kind| of.under(**kind, *context)).count()).sum();
    let full = lent.full();
    visit(t, lent, plain, room, &[]);
    let (answer, listed) = (lent.check(&[]), lent.pairs().count());
    let expected = if every > room.pairs { (Err(refused(14, 0)), 0) } else { (full, every) };
    t.agree("an inspection", (answer, listed) == expected);
    same_park(t, lent, plain);
}

fn spelled(rows: &[[u32; 4]]) -> String {
    let line = |[kind, x, y, z]: &[u32; 4]| match kind {
        0 => format!("(insert {x} {y})\n"),
        1 => format!("(delete {x})\n"),
        2 => format!("(set {x} {y} {})\n", *z as i32),
        3 => format!("(join {x} {y} {z})\n"),
        4 => format!("(part {x} {y} {z})\n"),
        5 => format!("(special {x} {y})\n"),
        6 => format!("(general {x} {y})\n"),
        _ => String::new(),
    };
    rows.iter().filter(|row| lent::event(row).is_some()).map(line).collect()
}

// A damaged register in the place of the park's: refused with the park left as it was, or taken where the damage does none.
fn damaged_register(t: &mut Tally, lent: &mut Park, plain: Plain, seed: u32) -> Plain {
    let rules = plain.rules.clone();
    let damaged = Plain { rules: plain.rules.clone(), ..drawn::damaged(literal::copy(&plain), seed) };
    let found = lent.set_register(&lent::objects(&damaged), &lent::links(&damaged));
    match literal::batch(&damaged, drawn::ROOM, &[], 512).answer {
        incremental::Answer::Refused(number, place) => {
            t.refusal("a damaged register", found, (number, place));
            same_park(t, lent, &plain);
            plain
        }
        _ => {
            t.agree("a register", found.is_ok());
            Plain { rules, ..damaged }
        }
    }
}

// Three visits one after the other to each drawn park, each with an inspection after it, so that the counts have to stay in step with the tables.
fn drawn_parks() -> Tally {
    let mut t = Tally::default();
    for seed in 1..=DRAWN {
        let mut plain = drawn::book(seed);
        // some lists are too short
        let room = Room { pairs: if seed % 16 == 0 { 2 } else { 256 }, ..DRAWN_ROOM };
        let rows = drawn::batch(&plain, seed + 1_000_000);
        let text = spelling::text(&plain) + &spelled(&rows);
        let (mut lent, events) = Park::read_with(text.as_bytes(), room).expect("a drawn text");
        t.agree("the events that are read", events == lent::events(&rows));
        let unknown = rows.iter().any(|row| literal::refusal(&plain, drawn::ROOM, *row) == Some(7));
        t.agree("the text with its events", unknown || lent.text(&events) == Ok(text.into_bytes()));
        if seed % 4 == 1 {
            plain = damaged_register(&mut t, &mut lent, plain, seed);
        }
        for n in 1..=3 {
            let rows = drawn::batch(&plain, seed + n * 1_000_000);
            plain = visit(&mut t, &mut lent, &plain, room, &rows);
            inspection(&mut t, &mut lent, &plain, room);
        }
    }
    t
}

// The visits of the measurements, and parks without a row left.
fn largest() -> Tally {
    let mut t = Tally::default();
    for (sections, room) in [(&visits::SMALL[..], Room { objects: 256, links: 1024, pairs: 4096 }), (&visits::LARGE, Room::LARGEST)] {
        let plain = visits::wind_park(sections);
        let (mut empty, _) = Park::read_with(lent::book_text(&plain).as_bytes(), room).expect("a book");
        empty.set_register(&lent::objects(&plain), &lent::links(&plain)).expect("a register");
        inspection(&mut t, &mut empty.clone(), &plain, room);
        for v in visits::broken() {
            // what a visit would leave that breaks a rule
            let after = v.events.iter().fold(literal::copy(&plain), |now, row| literal::done(&now, *row));
            let (mut lent, after) = (empty.clone(), Plain { rules: plain.rules.clone(), ..after });
            lent.set_register(&lent::objects(&after), &lent::links(&after)).expect("a register");
            inspection(&mut t, &mut lent, &after, room);
        }
        for v in visits::accepted().iter().chain(&visits::broken()).chain(&visits::refused()) {
            visit(&mut t, &mut empty.clone(), &plain, room, &v.events);
        }
    }
    let plain = park::park(1024, 4096, 7);
    let full = lent::park(&plain);
    inspection(&mut t, &mut full.clone(), &plain, Room::LARGEST);
    let (r, a, b) = plain.links[0];
    let (part, join) = ([4, r, a, b], [3, r, a, b]);
    // an insert without a row, a row freed and used again, and one that is not freed; deletes that free rows of both tables
    let replaced = vec![[1, a, 0, 0], [0, 65_000, 0, 0], [3, r, 65_000, b], [3, 9, 65_000, b]];
    let one_more = [&replaced[..], &[[0, 65_001, 0, 0]]].concat();
    let scrapped: Vec<_> = plain.objects.iter().step_by(50).map(|o| [1, o.0, 0, 0]).collect();
    let again: Vec<_> = scrapped.iter().flat_map(|e| [*e, [0, e[1], 0, 0]]).collect();
    let freed = [vec![part, join], vec![part, join, [3, 9, a, b], [3, 8, a, b]], replaced, one_more, scrapped, again];
    for rows in [vec![[0, 65_000, 0, 0]], vec![[2, a, 0, 1]]].into_iter().chain(freed) {
        visit(&mut t, &mut full.clone(), &plain, Room::LARGEST, &rows);
    }
    t
}

// A line in another form, by its number and what is done to it: refusal 1 at that line.
fn damaged_texts() -> Tally {
    let damages: [fn(&str) -> String; 8] = [
        |l| l[1..].to_string(),
        |l| l[..l.len() - 1].to_string(),
        |l| l.replacen(' ', "  ", 1),
        |l| l.replacen('(', "( ", 1),
        |l| l.replacen(' ', " 0", 1).replacen(" 0-", " -0", 1),
        |l| format!("{l})"),
        |l| format!("{} 0)", &l[..l.len() - 1]),
        |_| String::new(),
    ];
    let mut t = Tally::default();
    for seed in 1..=300 {
        let text = spelling::text(&drawn::book(seed));
        let lines: Vec<&str> = text.lines().collect();
        for (k, damage) in damages.iter().enumerate() {
            let at = (seed as usize * 5 + k * 3) % lines.len();
            let bad: String = lines.iter().enumerate().map(|(n, l)| if n == at { damage(l) } else { l.to_string() } + "\n").collect();
            t.refusal("a damaged text", Park::read(bad.as_bytes()), (1, at as u32 + 1));
        }
        t.refusal("a text without its last byte", Park::read(&text.as_bytes()[..text.len() - 1]), (1, lines.len() as u32));
    }
    t
}

fn lines(count: usize, line: impl Fn(usize) -> String) -> String {
    (0..count).map(|n| line(n) + "\n").collect()
}

// One more than a limit or the room has.
fn too_many() -> Tally {
    let mut t = Tally::default();
    let head = "(type 0 - 0)\n(rel 0 0 0)\n".to_string();
    let objects = |n| lines(n, |i| format!("(ent {} 0)", i + 1));
    let links = |n| lines(n, |i| format!("(link 0 {} {})", 1 + i / 65, 1 + i % 65));
    let rule = |nots: usize| format!("{}(kind 0 0){}", "(not ".repeat(nots), ")".repeat(nots));
    let cases = [
        (lines(33, |n| format!("(type {n} - 0)")), 33),
        (lines(32, |n| format!("(type {n} - 8)")) + &lines(257, |n| format!("(floor {} {})", n / 8, n % 8)), 289),
        ("(type 0 - 0)\n".to_string() + &lines(33, |n| format!("(rel {n} 0 0)")), 34),
        (head.clone() + &lines(33, |n| format!("(rule {n} 0 (kind 0 0))")), 35),
        (head.clone() + &lines(1, |n| format!("(rule {n} 0 {})", rule(64))), 3),
        (head.clone() + &objects(1025), 1027),
        (head.clone() + &objects(65) + &links(4097), 2 + 65 + 4097),
        (head.clone() + &objects(1) + &lines(257, |_| "(delete 2)".to_string()), 2 + 1 + 257),
        (head.clone() + &"x".repeat(65_536), 0),
    ];
    for (text, line) in &cases {
        t.refusal("a text with too much", Park::read(text.as_bytes()), (2, *line));
    }
    let text = head + &objects(4) + &lines(3, |n| format!("(link 0 1 {})", n + 1));
    let room = |objects, links| Room { objects, links, pairs: 0 };
    t.refusal("too few rows for objects", Park::read_with(text.as_bytes(), room(3, 9)), (2, 6));
    t.refusal("too few rows for links", Park::read_with(text.as_bytes(), room(9, 2)), (2, 9));
    let (mut park, _) = Park::read_with(text.as_bytes(), room(4, 3)).expect("a text that fits");
    let five: Vec<_> = (1..=5).map(|id| checker::Object { id, type_number: 0, cells: [0; 8] }).collect();
    t.refusal("too few rows for a register", park.set_register(&five, &[]), (2, 0));
    let many = vec![Event::Delete { object: 4 }; 257];
    t.count(park.check(&many));
    t.agree("too many events", park.check(&many) == Err(refused(2, 0)) && park.objects().count() == 4);
    t
}

// The event list of the example's first rule without its floors, by hand: cabinets (0) with drives (1), and a sum of what they draw.
fn event_lists() -> Tally {
    let mut t = Tally::default();
    let text: String = include_str!("../docs/examples/park.txt").split_inclusive('\n').filter(|line| !line.starts_with("(floor")).collect();
    let (park, events) = Park::read(text.as_bytes()).expect("the example without floors");
    t.count(park.clone().check(&events));
    let set = |type_number| EventType::Set { type_number, cell: 0 };
    let (insert, delete) = (EventType::Insert { type_number: 0 }, EventType::Delete { type_number: 1 });
    let (join, part) = (EventType::Join { relationship: 0 }, EventType::Part { relationship: 0 });
    t.agree("an event list", park.events(0) == Ok(vec![insert, delete, set(0), set(1), join, part]));
    t.refusal("a rule that is not there", park.events(4), (4, 4));
    t
}

// The example, where what a drive draws has a floor: a sum that a removal cannot raise, and what is refused below it.
fn floors() -> Tally {
    let mut t = Tally::default();
    let text = include_str!("../docs/examples/park.txt");
    let (mut park, _) = Park::read(text.as_bytes()).expect("the example");
    let set = |type_number| EventType::Set { type_number, cell: 0 };
    let (insert, join) = (EventType::Insert { type_number: 0 }, EventType::Join { relationship: 0 });
    t.agree("an event list", park.events(0) == Ok(vec![insert, set(0), set(1), join]));
    t.count(park.check(&[Event::Delete { object: 10 }]));
    t.agree("the pairs of a removal", park.pairs().all(|p| p.rule != 0));
    let below = [1, 0].map(|cell| Event::Set { object: 11, cell, value: -1 });
    t.refusal("the run of a set below a floor", park.run(&below), (15, 1));
    t.count(park.check(&below));
    t.agree("a set below a floor", park.check(&below) == Err(refused(15, 1)));
    let lowered = |o: checker::Object| checker::Object { cells: std::array::from_fn(|k| if k == 0 { -1 } else { o.cells[k] }), ..o };
    let (objects, links): (Vec<_>, Vec<_>) = (park.objects().map(lowered).collect(), park.links().collect());
    let drive = objects.iter().position(|o| [1, 2].contains(&o.type_number)).expect("a drive");
    t.refusal("a register below a floor", park.set_register(&objects, &links), (5, drive as u32));
    let twice = text.replacen("(floor", "(floor 1 0)\n(floor", 1);
    t.refusal("a floor twice", Park::read(twice.as_bytes()).and_then(|(park, _)| park.events(0)), (3, 1));
    t
}

// The name of a refusal in the header: CHECKER_TOO_MANY for TooMany.
fn header_name(number: RefusalNumber) -> String {
    let letters = |letter: char| if letter.is_uppercase() { format!("_{letter}") } else { letter.to_uppercase().to_string() };
    format!("CHECKER{}", format!("{number:?}").chars().map(letters).collect::<String>())
}

// What each refusal says, beside the one list of the sentences; and the versions, of which a program can tell that they differ.
fn refusals() -> Tally {
    let mut t = Tally::default();
    t.agree("the version", checker::version() == checker::CHECKER_VERSION);
    let table: Vec<Vec<&str>> = include_str!("../bin/refusals.txt").lines().map(|line| line.split('\t').collect()).collect();
    for row in &table {
        let [code, counted, sentence] = row[..] else { panic!("three columns") };
        let number = RefusalNumber::from(code.parse::<u32>().expect("a number"));
        t.agree("a refusal's name", include_str!("checker.h").contains(&format!("{} = {code}", header_name(number))));
        for place in [0, 1, 70_000, u32::MAX] {
            let refusal = Refusal { number, place };
            let at = if counted == "-" || counted == "line" && place == 0 { String::new() } else { format!(" at {counted} {place}") };
            let said: Box<dyn std::error::Error> = refusal.into();
            t.count(Err(refusal));
            t.agree("what a refusal says", said.to_string() == format!("refused {code}{at}: {sentence}"));
        }
    }
    let named = |code: &u32| RefusalNumber::from(*code) != RefusalNumber::Other(*code);
    t.agree("the named refusals", (0..100).chain([u32::MAX]).filter(named).eq(1..=table.len() as u32));
    t.agree("the numbers of refusals", (0..100).chain([u32::MAX]).all(|code| RefusalNumber::from(code).code() == code));
    t.agree("a number without a name", refused(99, 3).to_string().starts_with("refused 99 at place 3: "));
    t
}

fn tests() -> usize {
    let groups: [(&str, fn() -> Tally); 11] = [
        ("visits to drawn parks", drawn_parks),
        ("visits to the largest parks", largest),
        ("damaged texts", damaged_texts),
        ("texts, registers and batches with too much", too_many),
        ("event lists", event_lists),
        ("visits, lists and registers with a floor", floors),
        ("refusals in words", refusals),
        ("texts of any bytes", anything::texts),
        ("registers of any numbers", anything::registers),
        ("batches of any numbers", anything::batches),
        ("rooms of any size, and more than any room", anything::rooms),
    ];
    let tallies = groups.map(|(name, group)| {
        let t = group();
        t.tell(name);
        t.disagreements
    });
    tallies.iter().sum()
}

// On a thread with no more stack than the wrapper says that it takes, and half as much again for the plain check.
fn main() {
    let thread = std::thread::Builder::new().stack_size(checker::STACK * 3 / 2).spawn(tests).expect("a thread");
    std::process::exit(if thread.join().expect("tests") == 0 { 0 } else { 1 });
}
