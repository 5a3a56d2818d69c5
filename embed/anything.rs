// Texts, registers, batches and rooms of any kind: each call answers or is refused, and none panics.
use crate::checker::{Body, Event, Form, Link, Object, Park, Room, Verdict};
use crate::park::Draw;
use crate::{drawn, lent, refused, rule_lines, rule_lines_in, spelled, spelling, Answer, Tally, DRAWN_ROOM};
use std::panic::{catch_unwind, AssertUnwindSafe};

const TEXTS: u32 = 20_000;
const REGISTERS: u32 = 5_000;
const BATCHES: u32 = 10_000;

impl Tally {
    // Whatever the answer is, there is one, and what has to hold beside it does.
    fn survives(&mut self, what: &str, call: impl FnOnce() -> (Answer, bool)) {
        match catch_unwind(AssertUnwindSafe(call)) {
            Ok((answer, right)) => {
                self.count(answer);
                self.agree(what, right);
            }
            Err(_) => {
                self.cases += 1;
                self.agree(&format!("{what}: a panic, where an answer"), false);
            }
        }
    }
}

fn pick<T: Copy>(d: &mut Draw, of: &[T]) -> T {
    of[d.below(of.len() as u32) as usize]
}

// A word that is one of a small park's numbers, at an edge, or any.
fn word(d: &mut Draw) -> u32 {
    match d.below(8) {
        0 => pick(d, &[8, 31, 32, 64, 1023, 1024, 4096, 65_535, 65_536, i32::MAX as u32, 1 << 31, u32::MAX - 1, u32::MAX]),
        1 => d.next(),
        _ => d.below(15),
    }
}

fn any_event(d: &mut Draw) -> Event {
    let (x, y, z) = (word(d), word(d), word(d));
    let kinds = [
        Event::Insert { object: x, type_number: y },
        Event::Delete { object: x },
        Event::Set { object: x, cell: y, value: z as i32 },
        Event::Join { relationship: x, source: y, target: z },
        Event::Part { relationship: x, source: y, target: z },
        Event::Special { object: x, type_number: y },
        Event::General { object: x, type_number: y },
    ];
    pick(d, &kinds)
}

fn any_object(d: &mut Draw) -> Object {
    Object { id: word(d), type_number: word(d), cells: [(); 8].map(|_| word(d) as i32) }
}

fn any_link(d: &mut Draw) -> Link {
    Link { relationship: word(d), source: word(d), target: word(d) }
}

// Every call on a park. Unless the batch is accepted the register stays as it was; an inspection answers as the full check does, if its
// pairs have room.
fn every_call(park: &mut Park, events: &[Event]) -> (Answer, bool) {
    let register = |park: &Park| (park.objects().collect::<Vec<_>>(), park.links().collect::<Vec<_>>());
    let shown = format!("{park:?}{:?}{:?}", park.types().collect::<Vec<_>>(), park.relationships().collect::<Vec<_>>());
    let lists = [0, 1, 31, 32, u32::MAX].map(|rule| park.events(rule).is_ok());
    let (before, full, ran) = (register(park), park.full(), park.run(events));
    let inspected = park.clone().check(&[]);
    let answer = park.check(events);
    let after = register(park);
    let left = if answer == Ok(Verdict::Accepted) { ran == Ok(after) } else { before == after };
    let listed = answer.is_ok() || park.pairs().count() == 0;
    let right = [shown.len() < 10_000, !lists[4], left, listed, inspected == full || inspected == Err(refused(14, 0))];
    (answer, right.iter().all(|holds| *holds))
}

// A text that is read comes back when it is written, and its rules are shown as they stand in it.
fn from_text(text: &[u8], room: Room) -> (Answer, bool) {
    match Park::read_with(text, room) {
        Err(refusal) => (Err(refusal), true),
        Ok((mut park, events)) => {
            let same = rule_lines(&park) == rule_lines_in(text) && park.text(&events).map_or(true, |written| written == text);
            let (answer, right) = every_call(&mut park, &events);
            (answer, right && same)
        }
    }
}

// A byte of those that texts are made of, or any.
fn byte(d: &mut Draw) -> u8 {
    if d.below(8) == 0 { d.next() as u8 } else { pick(d, b"()-0123456789 \nenlrs\0\xff") }
}

fn damage(d: &mut Draw, text: &mut Vec<u8>) {
    let at = d.below(text.len() as u32 + 1) as usize;
    let digit = text.iter().skip(at).position(u8::is_ascii_digit).map(|n| at + n);
    match d.below(24) {
        0 => text.truncate(at),
        1 => text.insert(at, byte(d)),
        2 if at < text.len() => drop(text.remove(at)),
        3 if at < text.len() => text[at] ^= 1 << d.below(8),
        4 if at < text.len() => text[at] = byte(d),
        5 => text.extend_from_within(at..),
        6 => text.iter_mut().skip(at).for_each(|old| *old = d.next() as u8),
        7 => text.iter_mut().skip(at).take(3).for_each(|old| *old = 0),
        8 => drop(text.splice(at..at, (0..d.below(20)).map(|_| byte(d)).collect::<Vec<_>>())),
        9 => drop(digit.map(|n| text.splice(n..=n, (word(d) as i32).to_string().into_bytes()))),
        _ => drop(digit.map(|n| text[n] = b'0' + d.below(8) as u8)),
    }
}

// Texts without a line in its form, as long as a text can be and longer, and a body deeper than any that is read.
fn long_texts() -> Vec<Vec<u8>> {
    let lengths = [0, 1, 100, 65_535, 65_536, 65_537, 200_000];
    let repeated = |of: u8| lengths.map(|length| vec![of; length]);
    let deep = |open: &str, count| format!("(type 0 - 0)\n(rule 0 0 {}", open.repeat(count)).into_bytes();
    let mut longest = spelling::text(&spelling::park_of(65_536)).into_bytes();
    let room_left = 65_536 - longest.len();
    let mut out: Vec<Vec<u8>> = b"\0\n(x\xff".iter().flat_map(|of| repeated(*of)).collect();
    out.extend([deep("(not ", 13_000), deep("(and (kind 0 0) ", 4_000), longest.clone()]);
    // up to the last byte that a text can have, and one more
    longest.extend(b"(delete 1)\n".iter().cycle().take(room_left));
    out.extend([longest.clone(), [longest, vec![b'\n']].concat()]);
    out
}

pub fn texts() -> Tally {
    let mut t = Tally::default();
    for text in long_texts() {
        t.survives("a long text", || from_text(&text, Room::LARGEST));
    }
    for seed in 1..=TEXTS {
        let (book, mut d) = (drawn::book(seed), Draw(seed + 3_000_000));
        let mut text = (spelling::text(&book) + &spelled(&drawn::batch(&book, seed))).into_bytes();
        for _ in 0..=d.below(3) {
            damage(&mut d, &mut text);
        }
        t.survives("a damaged text", || from_text(&text, DRAWN_ROOM));
    }
    t
}

// A right register with rows of any numbers, or with any numbers in some of its rows; in order or not.
fn damage_register(d: &mut Draw, objects: &mut Vec<Object>, links: &mut Vec<Link>) {
    let (first, step) = (d.below(3) as usize, 1 + d.below(6) as usize);
    match d.below(6) {
        0 => objects.extend([(); 3].map(|_| any_object(d))),
        1 => links.extend([(); 3].map(|_| any_link(d))),
        2 => objects.iter_mut().skip(first).step_by(step).for_each(|o| o.cells[d.below(8) as usize] = word(d) as i32),
        3 => objects.iter_mut().skip(first).step_by(step).for_each(|o| o.type_number = word(d)),
        4 => links.iter_mut().skip(first).step_by(step).for_each(|l| l.target = word(d)),
        _ => objects.reverse(),
    }
    if d.below(2) == 0 {
        objects.sort();
        links.sort();
    }
}

pub fn registers() -> Tally {
    let mut t = Tally::default();
    for seed in 1..=REGISTERS {
        let (book, mut d) = (drawn::book(seed), Draw(seed + 4_000_000));
        let (mut objects, mut links) = (lent::objects(&book), lent::links(&book));
        damage_register(&mut d, &mut objects, &mut links);
        let (mut park, _) = Park::read_with(spelling::text(&book).as_bytes(), DRAWN_ROOM).expect("a drawn text");
        t.survives("any register", || match park.set_register(&objects, &links) {
            Err(refusal) => (Err(refusal), park.objects().eq(lent::objects(&book)) && park.links().eq(lent::links(&book))),
            Ok(()) => every_call(&mut park, &lent::events(&drawn::batch(&book, seed))),
        });
    }
    t
}

// The forms of a rule in any order and with any row among them, which is no whole form.
fn any_body(d: &mut Draw, body: Body) -> Body {
    let any = (0..d.below(4)).map(|_| Form::Other { row: [(); 4].map(|_| word(d)) });
    let mut forms: Vec<Form> = body.forms.into_iter().chain(any.collect::<Vec<_>>()).collect();
    let count = forms.len() as u32;
    forms.rotate_left(d.below(count) as usize);
    forms.truncate(d.below(count + 1) as usize);
    Body { forms }
}

pub fn batches() -> Tally {
    let mut t = Tally::default();
    for seed in 1..=BATCHES {
        let (book, mut d) = (drawn::book(seed), Draw(seed + 5_000_000));
        let (mut park, _) = Park::read_with(spelling::text(&book).as_bytes(), DRAWN_ROOM).expect("a drawn text");
        let right = lent::events(&drawn::batch(&book, seed));
        let most = pick(&mut d, &[1, 3, 3, 3, 12, 257]);
        let any: Vec<Event> = (0..=d.below(most)).map(|_| any_event(&mut d)).collect();
        let events = if d.below(2) == 0 { any } else { [right, any].concat() };
        t.survives("any batch", || {
            let bodies: Vec<Body> = park.rules().map(|rule| any_body(&mut d, rule.body)).collect();
            let shown = bodies.iter().all(|body| body.to_string().matches('(').count() == body.forms.len());
            let written = park.text(&events).is_ok();
            let (answer, right) = every_call(&mut park, &events);
            (answer, right && shown && (written || answer.is_err()))
        });
    }
    t
}

// Rooms from none to more than there is memory, and slices longer than any room.
pub fn rooms() -> Tally {
    let mut t = Tally::default();
    let text = include_bytes!("../docs/examples/park.txt");
    let sizes = [0, 1, 5, 6, 7, 1024, usize::MAX / 10 + 1, usize::MAX / 2, usize::MAX];
    for objects in sizes {
        for links in sizes {
            for pairs in sizes {
                t.survives("a room", || from_text(text, Room { objects, links, pairs }));
            }
        }
    }
    let (mut park, _) = Park::read(text).expect("the example");
    let mut d = Draw(1);
    let (events, objects): (Vec<_>, Vec<_>) = (0..100_000).map(|_| (any_event(&mut d), any_object(&mut d))).unzip();
    let links: Vec<_> = (0..100_000).map(|_| any_link(&mut d)).collect();
    t.survives("a long batch", || every_call(&mut park, &events));
    t.survives("a long batch as a text", || (park.text(&events).map(|_| Verdict::Accepted), true));
    t.survives("many objects", || (park.set_register(&objects, &[]).map(|()| Verdict::Accepted), true));
    t.survives("many links", || (park.set_register(&[], &links).map(|()| Verdict::Accepted), true));
    t
}
