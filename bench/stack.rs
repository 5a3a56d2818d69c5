// The stack that each entry needs. The free stack below the caller is painted, the entry called, and the lowest word that lost its paint
// tells how deep it went.
#[allow(dead_code)]
mod library;
#[allow(dead_code)]
mod park;
#[allow(dead_code)]
mod spelling;

use park::{tables, Form, Park};

const PAINTED: usize = 4 << 20;
const PAINT: u64 = 0x7061_696e_7465_6421;

// Bytes from the caller's stack pointer to the lowest word that the call wrote: its frames, its arguments and its return address.
#[inline(never)]
fn depth(call: impl FnOnce()) -> usize {
    let top: usize;
    unsafe { std::arch::asm!("mov {}, rsp", out(reg) top) };
    // a function may use 128 bytes below its stack pointer
    let end = (top - 128) as *mut u64;
    let start = (top - PAINTED) as *mut u64;
    let mut at = start;
    while at < end {
        unsafe { at.write_volatile(PAINT) };
        at = at.wrapping_add(1);
    }
    call();
    at = start;
    while at < end && unsafe { at.read_volatile() } == PAINT {
        at = at.wrapping_add(1);
    }
    assert!(at > start, "more stack than was painted");
    top - at as usize
}

fn b(f: Form) -> Box<Form> {
    Box::new(f)
}

// The role of a variable in a chain of them: variable 0 is a cabinet, 1 a drive, 2 a cabinet again, and so on.
fn role(v: u32) -> Box<Form> {
    b(Form::Role(v, v % 2))
}

fn rows(f: &Form) -> usize {
    let mut out = vec![];
    park::write(f, &mut out);
    out.len() / 4
}

// A truth of 64 forms: a step as often as it fits, from the innermost form out, and `not` around the whole for what is left. The step at
// level v may bind variable v + 1.
fn deepest(innermost: fn(u32) -> Form, step: fn(u32, Form) -> Form, whole: fn(Form) -> Form) -> Form {
    let nested = |levels: u32| whole((0..levels).rev().fold(innermost(levels), |inner, v| step(v, inner)));
    let levels = (1..).take_while(|n| rows(&nested(*n)) <= 64).last().unwrap();
    let mut f = nested(levels);
    while rows(&f) < 64 {
        f = Form::Not(b(f));
    }
    f
}

fn deep_bodies() -> Vec<(&'static str, Form)> {
    use Form::*;
    let this = |_| Kind(0, 0);
    let one = |_| Num(1);
    let last = |v| Kind(v, v % 2);
    let drives = |_| Role(0, 0);
    let same = |f| f;
    let small = |f| Compare(0, b(f), b(Num(64)));
    vec![
        ("not", deepest(this, |_, f| Not(b(f)), same)),
        ("and, on the left", deepest(this, |_, f| Connect(0, b(f), b(Kind(0, 0))), same)),
        ("and, on the right", deepest(this, |_, f| Connect(0, b(Kind(0, 0)), b(f)), same)),
        ("add, on the left", deepest(one, |_, f| Combine(0, b(f), b(Num(1))), small)),
        ("add, on the right", deepest(one, |_, f| Combine(0, b(Num(1)), b(f)), small)),
        ("forall over select of select", deepest(drives, |_, f| Select(b(f), b(Kind(1, 1))), |f| Quantify(0, b(f), b(Kind(1, 1))))),
        ("size of select of select", deepest(drives, |_, f| Select(b(f), b(Kind(1, 1))), |f| Compare(4, b(Size(b(f))), b(Num(1))))),
        ("forall in forall", deepest(last, |v, f| Quantify(0, role(v), b(f)), same)),
        ("forall in select", deepest(last, |v, f| Quantify(0, b(Select(role(v), b(f))), b(Kind(v + 1, 0))), same)),
        ("size in select", deepest(last, |v, f| Compare(4, b(Size(b(Select(role(v), b(f))))), b(Num(1))), same)),
        ("sum in select", deepest(last, |v, f| Compare(4, b(Sum(b(Select(role(v), b(f))), 0)), b(Num(0))), same)),
        ("added sum in select", deepest(last, |v, f| Compare(4, b(Combine(0, b(Num(1)), b(Sum(b(Select(role(v), b(f))), 0)))), b(Num(0))), same)),
    ]
}

// One cabinet and one drive, linked, and one rule: every collection has a member, so that the check goes to the innermost form.
fn pair_with(body: Form) -> Park {
    Park {
        types: vec![(None, 3), (None, 3)],
        floors: vec![],
        relationships: vec![(0, 1)],
        rules: vec![(0, body)],
        objects: vec![(1, 0, [0; 8]), (2, 1, [0; 8])],
        links: vec![(0, 1, 2)],
    }
}

// A text of 65,536 bytes, and so as long as one may be: a rule whose body opens brackets to the end of its line.
fn brackets(opening: &str) -> String {
    let book = Park { rules: vec![], objects: vec![], links: vec![], ..pair_with(Form::Kind(0, 0)) };
    let mut t = spelling::text(&book) + "(rule 0 0";
    while t.len() + opening.len() < 65_536 {
        t += opening;
    }
    t += &" ".repeat(65_535 - t.len());
    t + "\n"
}

fn check(p: &Park) -> usize {
    let t = tables(p);
    let mut answer = 1;
    let bytes = depth(|| answer = library::check(&t));
    assert_eq!(answer, 0);
    bytes
}

fn full_check(p: &Park) -> usize {
    let t = tables(p);
    let mut answer = [2; 3];
    let bytes = depth(|| answer = library::full_check(&t));
    assert!(answer[0] < 2);
    bytes
}

fn read(text: &str, refused: u32) -> usize {
    let (mut lent, mut events) = library::largest();
    let mut answer = [2; 8];
    let bytes = depth(|| answer = library::read(text.as_bytes(), &mut lent, &mut events));
    assert_eq!(answer[0], refused);
    bytes
}

// A batch of 256 sets on the park's objects, run on a copy of its tables.
fn run(p: &Park) -> usize {
    let t = tables(p);
    let cells = |row: usize| t.types[t.objects[row * 10 + 1] as usize * 2 + 1];
    let rows: Vec<usize> = (0..t.objects.len() / 10).filter(|&row| cells(row) > 0).take(256).collect();
    let events: Vec<u32> = rows.iter().flat_map(|&row| [2, t.objects[row * 10], 0, 1]).collect();
    let mut scratch = (vec![0; t.objects.len()], vec![0; t.links.len()]);
    let used = ((t.objects.len() / 10) as u32, (t.links.len() / 3) as u32);
    let mut answer = [2; 3];
    let bytes = depth(|| answer = library::run(&t, used, &events, &mut scratch));
    assert_eq!(answer[0], 0);
    bytes
}

const ENTRIES: [&str; 4] = ["checker_check", "checker_full_check", "checker_run", "checker_read"];

fn line(name: &str, cells: [String; 4]) {
    println!("{name:38}{}", cells.map(|c| format!("{c:>20}")).concat());
}

fn measure() {
    let largest = park::park(1024, 4096, 7);
    let mut lines = vec![
        ("a park of 1,024 objects".to_string(), [check(&largest), full_check(&largest), run(&largest), 0]),
        ("a text of 64 KiB".to_string(), [0, 0, 0, read(&spelling::text(&spelling::park_of(65_536)), 0)]),
    ];
    for (name, body) in deep_bodies() {
        let p = pair_with(body);
        lines.push((format!("64 forms: {name}"), [check(&p), full_check(&p), run(&p), read(&spelling::text(&p), 0)]));
    }
    for opening in [" (not", " (forall", " ("] {
        lines.push((format!("64 KiB of \"{opening}\""), [0, 0, 0, read(&brackets(opening), 1)]));
    }
    line("bytes of stack", ENTRIES.map(|e| e.to_string()));
    for (name, bytes) in &lines {
        line(name, bytes.map(|n| if n == 0 { "-".to_string() } else { n.to_string() }));
    }
    line("most", [0, 1, 2, 3].map(|e| lines.iter().map(|l| l.1[e]).max().unwrap().to_string()));
}

fn main() {
    std::thread::Builder::new().stack_size(4 * PAINTED).spawn(measure).unwrap().join().unwrap();
}
