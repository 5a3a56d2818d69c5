//! Checks the register of a wind park, its objects and links, against the park's rules. The checker itself is the proved library
//! `libexports.a`; this is its safe side: put `mod checker;` into a program and give the archive to the linker, or name this folder as a
//! dependency of a Cargo package.
//!
//! A [`Park`] is made of a text and owns its tables, so no call can be given a wrong one. Whatever a call is given, it does not panic: it
//! answers, or refuses with a [`Refusal`] that says what is wrong and where.
//!
//! ```
//! use checker::{Event, Park, Refusal, Verdict};
//!
//! fn main() -> Result<(), Refusal> {
//!     // a cabinet of 30 A that feeds a drive, and the rule that its drives draw no more than it gives
//!     let text = b"(type 0 - 1)\n(type 1 - 1)\n(rel 0 0 1)\n\
//!                  (rule 0 0 (le (sum (role 0 0) 0) (cell 0 0)))\n\
//!                  (ent 10 0 30)\n(ent 20 1 25)\n(link 0 10 20)\n";
//!     let (mut park, _) = Park::read(text)?;
//!     let set = |value| Event::Set { object: 20, cell: 0, value };
//!     assert_eq!(park.check(&[set(31)])?, Verdict::Broken { rule: 0, object: 10 });
//!     assert_eq!(park.check(&[set(30)])?, Verdict::Accepted);
//!
//!     let refusal = park.check(&[Event::Delete { object: 21 }]).unwrap_err();
//!     assert_eq!(refusal.to_string(), "refused 8 at event 0: an event names an object that is not there");
//!
//!     let bodies: Vec<String> = park.rules().map(|rule| rule.body.to_string()).collect();
//!     assert_eq!(bodies, ["(le (sum (role 0 0) 0) (cell 0 0))"]);
//!     Ok(())
//! }
//! ```
//!
//! A call takes less than half of [`STACK`] bytes of its thread's stack. A park can be sent to another thread.

// As `mod checker;` of a program this file has what the program does not use, which is no fault of either.
#![allow(dead_code)]

use std::fmt;

/// The version of the entries that this module is written for. A program whose [`version`] is another was linked with a library that may
/// take other parameters.
pub const CHECKER_VERSION: u32 = 1;

/// Bytes of stack that a thread should have for any call; the measured figures are in docs/EMBEDDING.md.
pub const STACK: usize = 1 << 20;

/// Bytes that a text can have; a longer one is refused.
pub const MOST_TEXT: usize = 65_536;

const BODY_ROWS: usize = 64;
const MOST: usize = 32; // types, relationships and rules
const MOST_FLOORS: usize = 256;
const MOST_EVENTS: usize = 256;
const MOST_EVENT_TYPES: usize = 14 * MOST; // a set has eight cells a type, six kinds have one
const NO_PARENT: u32 = u32::MAX;

const OBJECT_WORDS: usize = 10;
const LINK_WORDS: usize = 3;

/// The version of the library's entries.
pub fn version() -> u32 {
    checker_version()
}

/// Rows of objects and links that a park can have, and pairs that its list can hold. More than [`Room::LARGEST`] is as good as that.
#[derive(Clone, Copy, Debug, PartialEq, Eq, Hash)]
pub struct Room {
    pub objects: usize,
    pub links: usize,
    pub pairs: usize,
}

impl Room {
    /// As much as there can be: refusal 14 is never met, and 13 only at 1,024 objects or 4,096 links. About 478 KB with the scratch.
    pub const LARGEST: Room = Room { objects: 1024, links: 4096, pairs: MOST * 1024 };
}

/// Why a call was refused. What was given is then as it was.
#[derive(Clone, Copy, Debug, PartialEq, Eq, Hash)]
pub struct Refusal {
    pub number: RefusalNumber,
    /// Where; [`RefusalNumber::counted`] says of what. Lines count from 1, and 0 is no line; all else counts from 0.
    pub place: u32,
}

impl Refusal {
    fn of(number: u32, place: u32) -> Refusal {
        Refusal { number: number.into(), place }
    }
}

impl fmt::Display for Refusal {
    fn fmt(&self, f: &mut fmt::Formatter<'_>) -> fmt::Result {
        let Refusal { number, place } = *self;
        write!(f, "refused {}", number.code())?;
        match number.counted() {
            Some("line") if place == 0 => (), // lines count from 1
            Some(counted) => write!(f, " at {counted} {place}")?,
            None => (),
        }
        write!(f, ": {}", number.sentence())
    }
}

impl std::error::Error for Refusal {}

// Each refusal once: its name, its number, what its place counts and its sentence; the last three are those of bin/refusals.txt.
macro_rules! refusals {
    ($($name:ident = $code:literal, $counted:expr, $sentence:literal;)+) => {
        /// What is wrong. More is said of each in docs/FITTER.md.
        #[derive(Clone, Copy, Debug, PartialEq, Eq, Hash)]
        #[non_exhaustive]
        pub enum RefusalNumber {
            $(#[doc = concat!($code, ": ", $sentence, ".")] $name,)+
            /// A number that has no name here. The library of [`CHECKER_VERSION`] has none; a later one may.
            Other(u32),
        }

        impl From<u32> for RefusalNumber {
            fn from(code: u32) -> RefusalNumber {
                match code {
                    $($code => RefusalNumber::$name,)+
                    _ => RefusalNumber::Other(code),
                }
            }
        }

        impl RefusalNumber {
            /// The number itself.
            pub fn code(self) -> u32 {
                match self {
                    $(RefusalNumber::$name => $code,)+
                    RefusalNumber::Other(code) => code,
                }
            }

            /// What the place of such a refusal counts; `None` where it has none.
            pub fn counted(self) -> Option<&'static str> {
                match self {
                    $(RefusalNumber::$name => $counted,)+
                    RefusalNumber::Other(_) => Some("place"),
                }
            }

            /// What is wrong, in words.
            pub fn sentence(self) -> &'static str {
                match self {
                    $(RefusalNumber::$name => $sentence,)+
                    RefusalNumber::Other(_) => "the library says why by a number that this module does not know",
                }
            }
        }
    };
}

refusals! {
    Form = 1, Some("line"), "a line of the text is not in its form";
    TooMany = 2, Some("line"), "there is more than a limit or the lent rows allow";
    Schema = 3, Some("item"), "a type, a floor or a relationship is wrong";
    Rule = 4, Some("rule"), "a rule does not fit the schema, or there is no such rule";
    Register = 5, Some("row"), "an object or a link of the register is wrong";
    Tables = 6, None, "a lent table is not whole rows, or a scratch is shorter than its table";
    Unknown = 7, Some("event"), "an event names a kind, type, relationship, cell or id that there cannot be";
    Absent = 8, Some("event"), "an event names an object that is not there";
    Present = 9, Some("event"), "an inserted object or a joined link is there already";
    NoLink = 10, Some("event"), "a parted link is not there";
    NoFit = 11, Some("event"), "a cell, an end or a new type does not fit the object's type";
    Linked = 12, Some("event"), "a link needs the type that a general would leave";
    Full = 13, Some("event"), "no row is left for another object or link";
    TooShort = 14, None, "the list or the text needs more room than is lent";
    Below = 15, Some("event"), "a cell with a floor would go below 0";
}

/// What a check says of the rules.
#[derive(Clone, Copy, Debug, PartialEq, Eq, Hash)]
#[must_use = "it says whether a rule is broken"]
pub enum Verdict {
    Accepted,
    /// The first pair that is broken.
    Broken { rule: u32, object: u32 },
}

/// A change to the register.
#[derive(Clone, Copy, Debug, PartialEq, Eq, Hash)]
pub enum Event {
    Insert { object: u32, type_number: u32 },
    /// With its links.
    Delete { object: u32 },
    Set { object: u32, cell: u32, value: i32 },
    Join { relationship: u32, source: u32, target: u32 },
    Part { relationship: u32, source: u32, target: u32 },
    Special { object: u32, type_number: u32 },
    General { object: u32, type_number: u32 },
}

/// What can break a rule: an event of this kind that counts for this type, cell or relationship.
#[derive(Clone, Copy, Debug, PartialEq, Eq, Hash)]
pub enum EventType {
    Insert { type_number: u32 },
    Delete { type_number: u32 },
    Set { type_number: u32, cell: u32 },
    Join { relationship: u32 },
    Part { relationship: u32 },
    Special { type_number: u32 },
    General { type_number: u32 },
}

/// A rule at an object, which a check looked at.
#[derive(Clone, Copy, Debug, PartialEq, Eq, PartialOrd, Ord, Hash)]
pub struct Pair {
    pub rule: u32,
    pub object: u32,
}

/// A type of objects: the type above it, and how many cells its objects have.
#[derive(Clone, Copy, Debug, PartialEq, Eq, Hash)]
pub struct Type {
    pub parent: Option<u32>,
    pub cells: u32,
}

/// A cell that is at least 0 in every object of a type and of the types below it.
#[derive(Clone, Copy, Debug, PartialEq, Eq, PartialOrd, Ord, Hash)]
pub struct Floor {
    pub type_number: u32,
    pub cell: u32,
}

/// The types that a relationship leads from and to.
#[derive(Clone, Copy, Debug, PartialEq, Eq, Hash)]
pub struct Relationship {
    pub source: u32,
    pub target: u32,
}

/// A rule: its body holds for each object of the context type.
#[derive(Clone, Debug, PartialEq, Eq, Hash)]
pub struct Rule {
    pub context: u32,
    pub body: Body,
}

/// The forms of a body, each after its parts; the last one is the body itself. It is shown as in a text, in brackets.
#[derive(Clone, Debug, PartialEq, Eq, Hash)]
pub struct Body {
    pub forms: Vec<Form>,
}

impl fmt::Display for Body {
    fn fmt(&self, f: &mut fmt::Formatter<'_>) -> fmt::Result {
        let mut whole: Vec<String> = vec![]; // the forms that are not yet part of another
        for form in &self.forms {
            let parts = whole.split_off(whole.len().saturating_sub(form.parts()));
            let mut text = format!("({}", form.name());
            parts.into_iter().chain(form.numbers()).for_each(|word| text.extend([" ", &word]));
            whole.push(text + ")");
        }
        whole.iter().try_for_each(|text| f.write_str(text))
    }
}

// Each form once: its code, its name in a text, how many parts it has, and its own numbers, which stand after the parts in a text.
macro_rules! forms {
    ($($code:literal $name:literal $parts:literal $form:ident $({ $($number:ident: $type:ty),+ })?;)+) => {
        /// One form of a body, without its parts.
        #[derive(Clone, Copy, Debug, PartialEq, Eq, Hash)]
        #[non_exhaustive]
        pub enum Form {
            $(#[doc = concat!("`", $name, "`")] $form $({ $($number: $type),+ })?,)+
            /// A row whose code has no name here. The library of [`CHECKER_VERSION`] reads none; a later one may.
            Other { row: [u32; 4] },
        }

        impl Form {
            fn of(row: [u32; 4]) -> Form {
                let [code, numbers @ ..] = row;
                let mut numbers = numbers.into_iter();
                match code {
                    $($code => Form::$form $({ $($number: numbers.next().unwrap_or_default() as $type),+ })?,)+
                    _ => Form::Other { row },
                }
            }

            /// Its name in a text.
            pub fn name(self) -> &'static str {
                match self {
                    $(Form::$form { .. } => $name,)+
                    Form::Other { .. } => "?",
                }
            }

            /// How many of the forms before it are its parts.
            pub fn parts(self) -> usize {
                match self {
                    $(Form::$form { .. } => $parts,)+
                    Form::Other { .. } => 0,
                }
            }

            // Its own numbers as in a text, where each has a sign.
            fn numbers(self) -> Vec<String> {
                let numbers: Vec<i32> = match self {
                    $(Form::$form $({ $($number),+ })? => vec![$($($number as i32),+)?],)+
                    Form::Other { row } => row.map(|word| word as i32).into(),
                };
                numbers.iter().map(i32::to_string).collect()
            }
        }
    };
}

forms! {
    0 "le" 2 Le;
    1 "lt" 2 Lt;
    2 "eq" 2 Eq;
    3 "ne" 2 Ne;
    4 "ge" 2 Ge;
    5 "gt" 2 Gt;
    6 "not" 1 Not;
    7 "and" 2 And;
    8 "or" 2 Or;
    9 "xor" 2 Xor;
    10 "implies" 2 Implies;
    11 "forall" 2 Forall;
    12 "exists" 2 Exists;
    13 "kind" 0 Kind { variable: u32, type_number: u32 };
    14 "num" 0 Num { value: i32 };
    15 "cell" 0 Cell { variable: u32, cell: u32 };
    16 "size" 1 Size;
    17 "sum" 1 Sum { cell: u32 };
    18 "add" 2 Add;
    19 "sub" 2 Sub;
    20 "role" 0 Role { variable: u32, role: u32 };
    21 "all" 0 All { type_number: u32 };
    22 "select" 2 Select;
}

/// An object of the register. Cells that its type lacks are 0.
#[derive(Clone, Copy, Debug, PartialEq, Eq, PartialOrd, Ord, Hash)]
pub struct Object {
    pub id: u32,
    pub type_number: u32,
    pub cells: [i32; 8],
}

/// A link of the register, from an object to an object.
#[derive(Clone, Copy, Debug, PartialEq, Eq, PartialOrd, Ord, Hash)]
pub struct Link {
    pub relationship: u32,
    pub source: u32,
    pub target: u32,
}

/// A book, its register, and what a check needs beside them.
#[derive(Clone)]
pub struct Park {
    types: Vec<u32>,
    floors: Vec<u32>,
    relationships: Vec<u32>,
    rules: Vec<u32>,
    bodies: Vec<u32>,
    objects: Vec<u32>,
    links: Vec<u32>,
    used: Used,
    scratch_objects: Vec<u32>,
    scratch_links: Vec<u32>,
    list: Vec<u32>,
    listed: u32,
}

#[derive(Clone, Copy, Debug, Default)]
struct Used {
    types: u32,
    floors: u32,
    relationships: u32,
    rules: u32,
    objects: u32,
    links: u32,
}

// The counts alone: the tables are hundreds of KB.
impl fmt::Debug for Park {
    fn fmt(&self, f: &mut fmt::Formatter<'_>) -> fmt::Result {
        f.debug_struct("Park").field("used", &self.used).field("listed", &self.listed).finish_non_exhaustive()
    }
}

impl Park {
    /// The park of a text, with room for the largest, and the events of its batch, which are not yet checked.
    pub fn read(text: &[u8]) -> Result<(Park, Vec<Event>), Refusal> {
        Park::read_with(text, Room::LARGEST)
    }

    /// The same with the room that is given.
    pub fn read_with(text: &[u8], room: Room) -> Result<(Park, Vec<Event>), Refusal> {
        let mut park = Park::empty(room);
        let mut events = vec![0; 4 * MOST_EVENTS];
        let mut answer = [0; 8];
        // SAFETY: each address and length is of a slice that lives through the call, and no two that are written overlap.
        unsafe {
            checker_read(
                text.as_ptr(), text.len(),
                park.types.as_mut_ptr(), park.types.len(), park.floors.as_mut_ptr(), park.floors.len(),
                park.relationships.as_mut_ptr(), park.relationships.len(), park.rules.as_mut_ptr(), park.rules.len(),
                park.bodies.as_mut_ptr(), park.bodies.len(),
                park.objects.as_mut_ptr(), park.objects.len(), park.links.as_mut_ptr(), park.links.len(),
                events.as_mut_ptr(), events.len(),
                &mut answer,
            );
        }
        match answer {
            [0, types, floors, relationships, rules, objects, links, count] => {
                park.used = Used { types, floors, relationships, rules, objects, links };
                Ok((park, all_known(rows(&events, count).map(event))?))
            }
            [_, number, place, ..] => Err(Refusal::of(number, place)),
        }
    }

    fn empty(room: Room) -> Park {
        // rows above a limit could not be used
        let words = |rows: usize, limit: usize, width: usize| vec![0; width * rows.min(limit)];
        let Room { objects, links, pairs } = Room::LARGEST;
        Park {
            types: vec![0; 2 * MOST],
            floors: vec![0; 2 * MOST_FLOORS],
            relationships: vec![0; 2 * MOST],
            rules: vec![0; 2 * MOST],
            bodies: vec![0; 4 * BODY_ROWS * MOST],
            objects: words(room.objects, objects, OBJECT_WORDS),
            links: words(room.links, links, LINK_WORDS),
            used: Used::default(),
            scratch_objects: words(room.objects, objects, OBJECT_WORDS),
            scratch_links: words(room.links, links, LINK_WORDS),
            list: words(room.pairs, pairs, 2),
            listed: 0,
        }
    }

    /// Puts other objects and links in the place of the park's, for registers that are kept elsewhere or are too long for a text.
    /// A refusal leaves the park as it was.
    pub fn set_register(&mut self, objects: &[Object], links: &[Link]) -> Result<(), Refusal> {
        let new_objects = table(objects.iter().map(object_row), self.objects.len());
        let new_links = table(links.iter().map(link_row), self.links.len());
        let used = Used { objects: count(objects.len()), links: count(links.len()), ..self.used };
        self.look_through(used, &new_objects, &new_links)?;
        (self.objects, self.links, self.used, self.listed) = (new_objects, new_links, used, 0);
        Ok(())
    }

    fn look_through(&self, used: Used, objects: &[u32], links: &[u32]) -> Result<(), Refusal> {
        // SAFETY: each address and length is of a slice that lives through the call; none is written.
        let coded = unsafe {
            checker_check(
                used.types, used.floors, used.relationships, used.rules, used.objects, used.links,
                self.types.as_ptr(), self.types.len(), self.floors.as_ptr(), self.floors.len(),
                self.relationships.as_ptr(), self.relationships.len(), self.rules.as_ptr(), self.rules.len(),
                self.bodies.as_ptr(), self.bodies.len(),
                objects.as_ptr(), objects.len(), links.as_ptr(), links.len(),
            )
        };
        if coded == 0 { Ok(()) } else { Err(Refusal::of((coded >> 32) as u32, coded as u32)) }
    }

    /// The batch check. An accepted batch is in the register afterwards; a broken or refused one leaves it as it was. No event at all is an
    /// inspection: every rule at every object of its type, so the answer is that of [`Park::full`].
    pub fn check(&mut self, events: &[Event]) -> Result<Verdict, Refusal> {
        let rows = event_rows(events);
        let mut answer = [0; 6];
        let n = self.used;
        // SAFETY: each address and length is of a slice that lives through the call, and no two that are written overlap.
        unsafe {
            checker_batch(
                n.types, n.floors, n.relationships, n.rules, n.objects, n.links, count(events.len()),
                self.types.as_ptr(), self.types.len(), self.floors.as_ptr(), self.floors.len(),
                self.relationships.as_ptr(), self.relationships.len(), self.rules.as_ptr(), self.rules.len(),
                self.bodies.as_ptr(), self.bodies.len(),
                self.objects.as_mut_ptr(), self.objects.len(), self.links.as_mut_ptr(), self.links.len(),
                rows.as_ptr(), rows.len(),
                self.scratch_objects.as_mut_ptr(), self.scratch_objects.len(), self.scratch_links.as_mut_ptr(), self.scratch_links.len(),
                self.list.as_mut_ptr(), self.list.len(),
                &mut answer,
            );
        }
        let [kind, x, y, pairs, objects, links] = answer;
        self.listed = pairs;
        if kind == 0 {
            self.used = Used { objects, links, ..n };
        }
        verdict([kind, x, y])
    }

    /// The register as the events would leave it, whatever the rules say; the park stays as it is.
    pub fn run(&mut self, events: &[Event]) -> Result<(Vec<Object>, Vec<Link>), Refusal> {
        let rows_of_events = event_rows(events);
        let mut answer = [0; 3];
        let n = self.used;
        // SAFETY: each address and length is of a slice that lives through the call, and no two that are written overlap.
        unsafe {
            checker_run(
                n.types, n.floors, n.relationships, n.rules, n.objects, n.links,
                self.types.as_ptr(), self.types.len(), self.floors.as_ptr(), self.floors.len(),
                self.relationships.as_ptr(), self.relationships.len(), self.rules.as_ptr(), self.rules.len(),
                self.bodies.as_ptr(), self.bodies.len(),
                self.objects.as_ptr(), self.objects.len(), self.links.as_ptr(), self.links.len(),
                self.scratch_objects.as_mut_ptr(), self.scratch_objects.len(), self.scratch_links.as_mut_ptr(), self.scratch_links.len(),
                count(events.len()), rows_of_events.as_ptr(), rows_of_events.len(),
                &mut answer,
            );
        }
        match answer {
            [0, objects, links] => {
                Ok((rows(&self.scratch_objects, objects).map(object).collect(), rows(&self.scratch_links, links).map(link).collect()))
            }
            [_, number, place] => Err(Refusal::of(number, place)),
        }
    }

    /// The pairs that the last batch check looked at, by rule and then by id; none after a refusal.
    pub fn pairs(&self) -> impl Iterator<Item = Pair> + '_ {
        rows(&self.list, self.listed).map(|[rule, object]| Pair { rule, object })
    }

    /// The full check: every rule at every object.
    pub fn full(&self) -> Result<Verdict, Refusal> {
        let mut answer = [0; 3];
        let n = self.used;
        // SAFETY: each address and length is of a slice that lives through the call; only the answer is written.
        unsafe {
            checker_full_check(
                n.types, n.floors, n.relationships, n.rules, n.objects, n.links,
                self.types.as_ptr(), self.types.len(), self.floors.as_ptr(), self.floors.len(),
                self.relationships.as_ptr(), self.relationships.len(), self.rules.as_ptr(), self.rules.len(),
                self.bodies.as_ptr(), self.bodies.len(),
                self.objects.as_ptr(), self.objects.len(), self.links.as_ptr(), self.links.len(),
                &mut answer,
            );
        }
        verdict(answer)
    }

    /// The event types that can break a rule.
    pub fn events(&self, rule: u32) -> Result<Vec<EventType>, Refusal> {
        let mut list = [0; 3 * MOST_EVENT_TYPES];
        let mut answer = [0; 3];
        let n = self.used;
        // SAFETY: each address and length is of a slice that lives through the call, and no two that are written overlap.
        unsafe {
            checker_events(
                n.types, n.floors, n.relationships, n.rules,
                self.types.as_ptr(), self.types.len(), self.floors.as_ptr(), self.floors.len(),
                self.relationships.as_ptr(), self.relationships.len(), self.rules.as_ptr(), self.rules.len(),
                self.bodies.as_ptr(), self.bodies.len(),
                rule, list.as_mut_ptr(), list.len(),
                &mut answer,
            );
        }
        all_known(rows(&list, done(answer)?).map(event_type))
    }

    /// The text of the book and the register, with these events after them.
    pub fn text(&self, events: &[Event]) -> Result<Vec<u8>, Refusal> {
        let rows = event_rows(events);
        let mut out = vec![0; MOST_TEXT];
        let mut answer = [0; 3];
        let n = self.used;
        // SAFETY: each address and length is of a slice that lives through the call, and no two that are written overlap.
        unsafe {
            checker_write(
                n.types, n.floors, n.relationships, n.rules, n.objects, n.links, count(events.len()),
                self.types.as_ptr(), self.types.len(), self.floors.as_ptr(), self.floors.len(),
                self.relationships.as_ptr(), self.relationships.len(), self.rules.as_ptr(), self.rules.len(),
                self.bodies.as_ptr(), self.bodies.len(),
                self.objects.as_ptr(), self.objects.len(), self.links.as_ptr(), self.links.len(),
                rows.as_ptr(), rows.len(),
                out.as_mut_ptr(), out.len(),
                &mut answer,
            );
        }
        out.truncate(done(answer)? as usize);
        Ok(out)
    }

    /// The types of the book; a type's number is its place.
    pub fn types(&self) -> impl Iterator<Item = Type> + '_ {
        let parent = |word| if word == NO_PARENT { None } else { Some(word) };
        rows(&self.types, self.used.types).map(move |[above, cells]| Type { parent: parent(above), cells })
    }

    /// The floors of the book, by type and cell.
    pub fn floors(&self) -> impl Iterator<Item = Floor> + '_ {
        rows(&self.floors, self.used.floors).map(|[type_number, cell]| Floor { type_number, cell })
    }

    /// The relationships of the book; a relationship's number is its place.
    pub fn relationships(&self) -> impl Iterator<Item = Relationship> + '_ {
        rows(&self.relationships, self.used.relationships).map(|[source, target]| Relationship { source, target })
    }

    /// The rules of the book; a rule's number is its place.
    pub fn rules(&self) -> impl Iterator<Item = Rule> + '_ {
        let bodies = self.bodies.chunks_exact(4 * BODY_ROWS);
        let body = |slot, used| Body { forms: rows(slot, used).map(Form::of).collect() };
        rows(&self.rules, self.used.rules).zip(bodies).map(move |([context, forms], slot)| Rule { context, body: body(slot, forms) })
    }

    /// The objects, by id.
    pub fn objects(&self) -> impl Iterator<Item = Object> + '_ {
        rows(&self.objects, self.used.objects).map(object)
    }

    /// The links, by relationship, source and target.
    pub fn links(&self) -> impl Iterator<Item = Link> + '_ {
        rows(&self.links, self.used.links).map(link)
    }
}

// The used rows of a table, or as many as it has; a chunk of a row's length is always a row.
fn rows<T: Copy, const WIDTH: usize>(table: &[T], used: u32) -> impl Iterator<Item = [T; WIDTH]> + '_ {
    table.chunks_exact(WIDTH).take(used as usize).filter_map(|row| row.try_into().ok())
}

// A table of so many words: the rows, and zeros after them. Rows that it has no room for are left out; their count is refused.
fn table<const WIDTH: usize>(rows: impl Iterator<Item = [u32; WIDTH]>, words: usize) -> Vec<u32> {
    let mut table: Vec<u32> = rows.flatten().take(words).collect();
    table.resize(words, 0);
    table
}

// A count for the library; one that no word holds is above every limit.
fn count(n: usize) -> u32 {
    u32::try_from(n).unwrap_or(u32::MAX)
}

fn verdict([kind, x, y]: [u32; 3]) -> Result<Verdict, Refusal> {
    match kind {
        0 => Ok(Verdict::Accepted),
        1 => Ok(Verdict::Broken { rule: x, object: y }),
        _ => Err(Refusal::of(x, y)),
    }
}

fn done([kind, x, y]: [u32; 3]) -> Result<u32, Refusal> {
    if kind == 0 { Ok(x) } else { Err(Refusal::of(x, y)) }
}

// The library of this version writes rows of the seven kinds only. A row of another kind is refused as an event of that kind would be.
fn all_known<T>(rows: impl Iterator<Item = Option<T>>) -> Result<Vec<T>, Refusal> {
    let known = |(place, row): (usize, Option<T>)| row.ok_or(Refusal { number: RefusalNumber::Unknown, place: count(place) });
    rows.enumerate().map(known).collect()
}

fn object([id, type_number, cells @ ..]: [u32; OBJECT_WORDS]) -> Object {
    Object { id, type_number, cells: cells.map(|cell| cell as i32) }
}

fn object_row(object: &Object) -> [u32; OBJECT_WORDS] {
    let [a, b, c, d, e, f, g, h] = object.cells.map(|cell| cell as u32);
    [object.id, object.type_number, a, b, c, d, e, f, g, h]
}

fn link([relationship, source, target]: [u32; LINK_WORDS]) -> Link {
    Link { relationship, source, target }
}

fn link_row(link: &Link) -> [u32; LINK_WORDS] {
    [link.relationship, link.source, link.target]
}

// No more rows than a batch can have: with more it is refused by its count alone.
fn event_rows(events: &[Event]) -> Vec<u32> {
    events.iter().take(MOST_EVENTS).flat_map(event_row).collect()
}

fn event_row(event: &Event) -> [u32; 4] {
    match *event {
        Event::Insert { object, type_number } => [0, object, type_number, 0],
        Event::Delete { object } => [1, object, 0, 0],
        Event::Set { object, cell, value } => [2, object, cell, value as u32],
        Event::Join { relationship, source, target } => [3, relationship, source, target],
        Event::Part { relationship, source, target } => [4, relationship, source, target],
        Event::Special { object, type_number } => [5, object, type_number, 0],
        Event::General { object, type_number } => [6, object, type_number, 0],
    }
}

fn event(row: [u32; 4]) -> Option<Event> {
    Some(match row {
        [0, object, type_number, _] => Event::Insert { object, type_number },
        [1, object, ..] => Event::Delete { object },
        [2, object, cell, value] => Event::Set { object, cell, value: value as i32 },
        [3, relationship, source, target] => Event::Join { relationship, source, target },
        [4, relationship, source, target] => Event::Part { relationship, source, target },
        [5, object, type_number, _] => Event::Special { object, type_number },
        [6, object, type_number, _] => Event::General { object, type_number },
        _ => return None,
    })
}

fn event_type([kind, of, cell]: [u16; 3]) -> Option<EventType> {
    let (of, cell) = (of.into(), cell.into());
    Some(match kind {
        0 => EventType::Insert { type_number: of },
        1 => EventType::Delete { type_number: of },
        2 => EventType::Set { type_number: of, cell },
        3 => EventType::Join { relationship: of },
        4 => EventType::Part { relationship: of },
        5 => EventType::Special { type_number: of },
        6 => EventType::General { type_number: of },
        _ => return None,
    })
}

// The entries as embed/checker.h has them.
unsafe extern "C" {
    safe fn checker_version() -> u32;

    fn checker_check(
        types_used: u32, floors_used: u32, relationships_used: u32, rules_used: u32, objects_used: u32, links_used: u32,
        types: *const u32, types_len: usize, floors: *const u32, floors_len: usize,
        relationships: *const u32, relationships_len: usize, rules: *const u32, rules_len: usize,
        bodies: *const u32, bodies_len: usize,
        objects: *const u32, objects_len: usize, links: *const u32, links_len: usize,
    ) -> u64;

    fn checker_full_check(
        types_used: u32, floors_used: u32, relationships_used: u32, rules_used: u32, objects_used: u32, links_used: u32,
        types: *const u32, types_len: usize, floors: *const u32, floors_len: usize,
        relationships: *const u32, relationships_len: usize, rules: *const u32, rules_len: usize,
        bodies: *const u32, bodies_len: usize,
        objects: *const u32, objects_len: usize, links: *const u32, links_len: usize,
        answer: &mut [u32; 3],
    );

    fn checker_read(
        text: *const u8, text_len: usize,
        types: *mut u32, types_len: usize, floors: *mut u32, floors_len: usize,
        relationships: *mut u32, relationships_len: usize, rules: *mut u32, rules_len: usize,
        bodies: *mut u32, bodies_len: usize,
        objects: *mut u32, objects_len: usize, links: *mut u32, links_len: usize,
        events: *mut u32, events_len: usize,
        answer: &mut [u32; 8],
    );

    fn checker_run(
        types_used: u32, floors_used: u32, relationships_used: u32, rules_used: u32, objects_used: u32, links_used: u32,
        types: *const u32, types_len: usize, floors: *const u32, floors_len: usize,
        relationships: *const u32, relationships_len: usize, rules: *const u32, rules_len: usize,
        bodies: *const u32, bodies_len: usize,
        objects: *const u32, objects_len: usize, links: *const u32, links_len: usize,
        end_objects: *mut u32, end_objects_len: usize, end_links: *mut u32, end_links_len: usize,
        events_used: u32, events: *const u32, events_len: usize,
        answer: &mut [u32; 3],
    );

    fn checker_batch(
        types_used: u32, floors_used: u32, relationships_used: u32, rules_used: u32, objects_used: u32, links_used: u32, events_used: u32,
        types: *const u32, types_len: usize, floors: *const u32, floors_len: usize,
        relationships: *const u32, relationships_len: usize, rules: *const u32, rules_len: usize,
        bodies: *const u32, bodies_len: usize,
        objects: *mut u32, objects_len: usize, links: *mut u32, links_len: usize,
        events: *const u32, events_len: usize,
        scratch_objects: *mut u32, scratch_objects_len: usize, scratch_links: *mut u32, scratch_links_len: usize,
        list: *mut u32, list_len: usize,
        answer: &mut [u32; 6],
    );

    fn checker_events(
        types_used: u32, floors_used: u32, relationships_used: u32, rules_used: u32,
        types: *const u32, types_len: usize, floors: *const u32, floors_len: usize,
        relationships: *const u32, relationships_len: usize, rules: *const u32, rules_len: usize,
        bodies: *const u32, bodies_len: usize,
        rule: u32, list: *mut u16, list_len: usize,
        answer: &mut [u32; 3],
    );

    fn checker_write(
        types_used: u32, floors_used: u32, relationships_used: u32, rules_used: u32, objects_used: u32, links_used: u32, events_used: u32,
        types: *const u32, types_len: usize, floors: *const u32, floors_len: usize,
        relationships: *const u32, relationships_len: usize, rules: *const u32, rules_len: usize,
        bodies: *const u32, bodies_len: usize,
        objects: *const u32, objects_len: usize, links: *const u32, links_len: usize,
        events: *const u32, events_len: usize,
        out: *mut u8, out_len: usize,
        answer: &mut [u32; 3],
    );
}
