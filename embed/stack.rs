// The stack that each call of `checker.rs` takes, the wrapper's own frames with it. The free stack below the caller is painted, the call
// made, and the lowest word that lost its paint tells how deep it went.
mod checker;
#[path = "../bench/fitters.rs"]
mod fitters;
#[allow(dead_code)]
mod lent;
#[allow(dead_code)]
#[path = "../bench/park.rs"]
mod park;
#[path = "../bench/spelling.rs"]
mod spelling;
#[allow(dead_code)]
#[path = "../bench/visits.rs"]
mod visits;

use checker::{Event, Park};

const PAINTED: usize = 4 << 20;
const PAINT: u64 = 0x6d61_726b_6564_2121;

// Bytes from the caller's stack pointer to the lowest word that the call wrote.
#[inline(never)]
fn depth(call: impl FnOnce()) -> usize {
    let top: usize;
    unsafe { std::arch::asm!("mov {}, rsp", out(reg) top) };
    // a function may use 128 bytes below its stack pointer
    let (start, end) = ((top - PAINTED) as *mut u64, (top - 128) as *mut u64);
    let words = || std::iter::successors(Some(start), |at| Some(at.wrapping_add(1))).take_while(|at| *at < end);
    words().for_each(|at| unsafe { at.write_volatile(PAINT) });
    call();
    let lowest = words().find(|at| unsafe { at.read_volatile() } != PAINT).unwrap_or(end);
    assert!(lowest > start, "more stack than was painted");
    top - lowest as usize
}

// Names of deep bodies, with the innermost form, the step around it at variable v, and the whole. A step leaves `*` for what is inside.
const BODIES: [(&str, &str, &str, &str); 16] = [
    ("not", "(kind 0 2)", "(not *)", "*"),
    ("and, on the left", "(kind 0 2)", "(and * (kind 0 2))", "*"),
    ("and, on the right", "(kind 0 2)", "(and (kind 0 2) *)", "*"),
    ("xor, on the right", "(kind 0 2)", "(xor (kind 0 2) *)", "*"),
    ("implies, on the left", "(kind 0 2)", "(implies * (kind 0 2))", "*"),
    ("add, on the left", "(cell 0 0)", "(add * (cell 0 0))", "(le * (num 64))"),
    ("sub, on the right", "(cell 0 0)", "(sub (cell 0 0) *)", "(le * (num 64))"),
    ("forall over select of select", "(role 0 0)", "(select * (kind 1 1))", "(forall * (kind 1 1))"),
    ("size of select of select", "(role 0 0)", "(select * (kind 1 1))", "(ge (size *) (num 1))"),
    ("forall in forall", "(le (cell V 0) (num 64))", "(forall (role v r) *)", "*"),
    ("exists in exists", "(le (cell V 0) (num 64))", "(exists (role v r) *)", "*"),
    ("forall over all in forall", "(le (cell V 0) (num 64))", "(forall (all 2) *)", "*"),
    ("forall in select", "(kind V 0)", "(forall (select (role v r) *) (kind n 0))", "*"),
    ("size in select", "(kind V 0)", "(ge (size (select (role v r) *)) (num 1))", "*"),
    ("sum in select", "(kind V 0)", "(ge (sum (select (role v r) *) 0) (num 0))", "*"),
    ("added sum in select", "(kind V 0)", "(ge (add (num 1) (sum (select (role v r) *) 0)) (num 0))", "*"),
];

// A body of so many steps. Variable 0 is a cabinet, 1 a drive, 2 a cabinet again, and so on: `r` is the role from one to the next.
fn nested(innermost: &str, step: &str, whole: &str, steps: usize) -> String {
    let inner = innermost.replace('V', &steps.to_string());
    let at = |v: usize| step.replace("role v r", &format!("role {v} {}", v % 2)).replace("kind n", &format!("kind {}", v + 1));
    whole.replace('*', &(0..steps).rev().fold(inner, |inside, v| at(v).replace('*', &inside)))
}

// The deepest body of at most 64 forms.
fn deepest(innermost: &str, step: &str, whole: &str) -> String {
    let fits = |body: &String| body.matches('(').count() <= 64;
    (1..64).map(|steps| nested(innermost, step, whole, steps)).take_while(fits).last().expect("a first step fits")
}

// One cabinet and one drive, linked, each also as a special kind, and a batch in which every kind of event moves something.
fn text_with(body: &str) -> String {
    let book = "(type 0 - 1)\n(type 1 - 1)\n(type 2 0 1)\n(type 3 1 1)\n(rel 0 0 1)\n";
    let register = "(ent 1 0 1)\n(ent 2 1 1)\n(ent 3 2 1)\n(link 0 1 2)\n";
    let comings = "(insert 4 2)\n(delete 4)\n(insert 4 0)\n(delete 2)\n(insert 2 1)\n(join 0 1 2)\n(set 1 0 2)\n(set 2 0 2)\n(part 0 1 2)\n(join 0 1 2)\n(join 0 4 2)\n";
    let turns = "(special 1 2)\n(general 1 0)\n(special 2 3)\n(general 2 1)\n";
    format!("{book}(rule 0 0 {body})\n{register}{comings}{turns}")
}

const CALLS: [&str; 7] = ["read", "set_register", "full", "run", "check", "events", "text"];

// The stack of each call on a park and a batch.
fn on_park(park: &Park, events: &[Event], text: &[u8]) -> [usize; 7] {
    let (objects, links): (Vec<_>, Vec<_>) = (park.objects().collect(), park.links().collect());
    let [mut set, mut ran, mut checked] = [(); 3].map(|_| park.clone());
    [
        depth(|| assert!(Park::read(text).is_ok())),
        depth(|| assert!(set.set_register(&objects, &links).is_ok())),
        depth(|| assert!(park.full().is_ok())),
        depth(|| assert!(ran.run(events).is_ok())),
        depth(|| assert!(checked.check(events).is_ok())),
        depth(|| assert!(park.events(0).is_ok())),
        depth(|| drop(park.text(events))),
    ]
}

fn measure() {
    let mut lines = vec![];
    let text = spelling::text(&spelling::park_of(65_536));
    for visit in visits::accepted() {
        let park = lent::park(&visits::wind_park(&visits::LARGE));
        lines.push((format!("1,000 objects: {}", visit.name), on_park(&park, &lent::events(&visit.events), text.as_bytes())));
    }
    for (name, innermost, step, whole) in BODIES {
        let text = text_with(&deepest(innermost, step, whole));
        let (park, events) = Park::read(text.as_bytes()).expect(name);
        lines.push((format!("64 forms: {name}"), on_park(&park, &events, text.as_bytes())));
    }
    let line = |name: &str, figures: [String; 7]| println!("{name:40}{}", figures.map(|f| format!("{f:>14}")).concat());
    line("bytes of stack", CALLS.map(String::from));
    lines.iter().for_each(|(name, bytes)| line(name, bytes.map(|b| b.to_string())));
    line("most", std::array::from_fn(|i| lines.iter().map(|l| l.1[i]).max().unwrap().to_string()));
}

fn main() {
    std::thread::Builder::new().stack_size(4 * PAINTED).spawn(measure).unwrap().join().unwrap();
}
