// The proved library's entries, over the tables of a park.
use crate::park::Tables;

// The entries over lent books and registers take the six counts, then each table by its address and length.
macro_rules! entries {
    ($($(#[$note:meta])* $name:ident($($last:ident: $type:ty)?) $(-> $result:ty)?;)*) => {
        extern "C" {
            $($(#[$note])* fn $name(
                types_used: u32, floors_used: u32, relationships_used: u32, rules_used: u32, objects_used: u32, links_used: u32,
                types: *const u32, types_len: usize, floors: *const u32, floors_len: usize, relationships: *const u32, relationships_len: usize,
                rules: *const u32, rules_len: usize, bodies: *const u32, bodies_len: usize,
                objects: *const u32, objects_len: usize, links: *const u32, links_len: usize,
                $($last: $type)?
            ) $(-> $result)?;)*
        }
    };
}

entries! {
    /// a refusal's number times 2^32 plus its place; 0 where none is met
    checker_check() -> u64;
    /// 0 where accepted; 1, rule, id; 2, number, place
    checker_full_check(answer: *mut u32);
}

macro_rules! on_tables {
    ($entry:ident, $t:ident $(, $last:expr)?) => {
        unsafe {
            $entry(
                ($t.types.len() / 2) as u32, ($t.floors.len() / 2) as u32, ($t.relationships.len() / 2) as u32, ($t.rules.len() / 2) as u32,
                ($t.objects.len() / 10) as u32, ($t.links.len() / 3) as u32,
                $t.types.as_ptr(), $t.types.len(), $t.floors.as_ptr(), $t.floors.len(), $t.relationships.as_ptr(), $t.relationships.len(),
                $t.rules.as_ptr(), $t.rules.len(), $t.bodies.as_ptr(), $t.bodies.len(),
                $t.objects.as_ptr(), $t.objects.len(), $t.links.as_ptr(), $t.links.len(),
                $($last)?
            )
        }
    };
}

pub fn check(t: &Tables) -> u64 {
    on_tables!(checker_check, t)
}

pub fn full_check(t: &Tables) -> [u32; 3] {
    let mut answer = [0; 3];
    on_tables!(checker_full_check, t, answer.as_mut_ptr());
    answer
}

extern "C" {
    /// 0 and the rows of the seven sections; or 1, number, line
    fn checker_read(
        text: *const u8, text_len: usize,
        types: *mut u32, types_len: usize, floors: *mut u32, floors_len: usize, relationships: *mut u32, relationships_len: usize,
        rules: *mut u32, rules_len: usize, bodies: *mut u32, bodies_len: usize,
        objects: *mut u32, objects_len: usize, links: *mut u32, links_len: usize,
        events: *mut u32, events_len: usize,
        answer: *mut u32,
    );
}

// The largest tables for a text, not cleared; the events' table stands beside the others.
pub fn largest() -> (Tables, Vec<u32>) {
    let words = |n| vec![7; n];
    let (types, floors, relationships, rules) = (words(64), words(512), words(64), words(64));
    let t = Tables { types, floors, relationships, rules, bodies: words(8192), objects: words(10240), links: words(12288) };
    (t, words(1024))
}

// Reads a text.
pub fn read(text: &[u8], t: &mut Tables, events: &mut [u32]) -> [u32; 8] {
    let mut answer = [0; 8];
    unsafe {
        checker_read(
            text.as_ptr(), text.len(),
            t.types.as_mut_ptr(), t.types.len(), t.floors.as_mut_ptr(), t.floors.len(), t.relationships.as_mut_ptr(), t.relationships.len(),
            t.rules.as_mut_ptr(), t.rules.len(), t.bodies.as_mut_ptr(), t.bodies.len(),
            t.objects.as_mut_ptr(), t.objects.len(), t.links.as_mut_ptr(), t.links.len(),
            events.as_mut_ptr(), events.len(),
            answer.as_mut_ptr(),
        );
    }
    answer
}

extern "C" {
    /// 0 and the used rows of objects and links after the batch, in the scratch; or 1, number, place
    fn checker_run(
        types_used: u32, floors_used: u32, relationships_used: u32, rules_used: u32, objects_used: u32, links_used: u32,
        types: *const u32, types_len: usize, floors: *const u32, floors_len: usize, relationships: *const u32, relationships_len: usize,
        rules: *const u32, rules_len: usize, bodies: *const u32, bodies_len: usize,
        objects: *const u32, objects_len: usize, links: *const u32, links_len: usize,
        scratch_objects: *mut u32, scratch_objects_len: usize, scratch_links: *mut u32, scratch_links_len: usize,
        events_used: u32, events: *const u32, events_len: usize,
        answer: *mut u32,
    );
}

// Runs a batch of events, four words each, on tables of which so many rows of objects and links are used. The register after it is in the scratch.
pub fn run(t: &Tables, used: (u32, u32), events: &[u32], scratch: &mut (Vec<u32>, Vec<u32>)) -> [u32; 3] {
    let mut answer = [0; 3];
    unsafe {
        checker_run(
            (t.types.len() / 2) as u32, (t.floors.len() / 2) as u32, (t.relationships.len() / 2) as u32, (t.rules.len() / 2) as u32,
            used.0, used.1,
            t.types.as_ptr(), t.types.len(), t.floors.as_ptr(), t.floors.len(), t.relationships.as_ptr(), t.relationships.len(),
            t.rules.as_ptr(), t.rules.len(), t.bodies.as_ptr(), t.bodies.len(),
            t.objects.as_ptr(), t.objects.len(), t.links.as_ptr(), t.links.len(),
            scratch.0.as_mut_ptr(), scratch.0.len(), scratch.1.as_mut_ptr(), scratch.1.len(),
            (events.len() / 4) as u32, events.as_ptr(), events.len(),
            answer.as_mut_ptr(),
        );
    }
    answer
}

extern "C" {
    /// 0, or 1, rule and id, or 2, number and place; then the pairs in the list and the used rows of objects and links after the batch
    fn checker_batch(
        types_used: u32, floors_used: u32, relationships_used: u32, rules_used: u32, objects_used: u32, links_used: u32, events_used: u32,
        types: *const u32, types_len: usize, floors: *const u32, floors_len: usize, relationships: *const u32, relationships_len: usize,
        rules: *const u32, rules_len: usize, bodies: *const u32, bodies_len: usize,
        objects: *mut u32, objects_len: usize, links: *mut u32, links_len: usize,
        events: *const u32, events_len: usize,
        scratch_objects: *mut u32, scratch_objects_len: usize, scratch_links: *mut u32, scratch_links_len: usize,
        list: *mut u32, list_len: usize,
        answer: *mut u32,
    );
}

// Checks a batch of events on tables of which so many rows of objects and links are used. They hold the register after it, where it is accepted.
pub fn batch(t: &mut Tables, used: (u32, u32), events: &[[u32; 4]], scratch: &mut (Vec<u32>, Vec<u32>), list: &mut [u32]) -> [u32; 6] {
    let mut answer = [0; 6];
    unsafe {
        checker_batch(
            (t.types.len() / 2) as u32, (t.floors.len() / 2) as u32, (t.relationships.len() / 2) as u32, (t.rules.len() / 2) as u32,
            used.0, used.1, events.len() as u32,
            t.types.as_ptr(), t.types.len(), t.floors.as_ptr(), t.floors.len(), t.relationships.as_ptr(), t.relationships.len(),
            t.rules.as_ptr(), t.rules.len(), t.bodies.as_ptr(), t.bodies.len(),
            t.objects.as_mut_ptr(), t.objects.len(), t.links.as_mut_ptr(), t.links.len(),
            events.as_flattened().as_ptr(), 4 * events.len(),
            scratch.0.as_mut_ptr(), scratch.0.len(), scratch.1.as_mut_ptr(), scratch.1.len(),
            list.as_mut_ptr(), list.len(),
            answer.as_mut_ptr(),
        );
    }
    answer
}

extern "C" {
    /// 0 and the event types in the list; or 1, number, place
    fn checker_events(
        types_used: u32, floors_used: u32, relationships_used: u32, rules_used: u32,
        types: *const u32, types_len: usize, floors: *const u32, floors_len: usize, relationships: *const u32, relationships_len: usize,
        rules: *const u32, rules_len: usize, bodies: *const u32, bodies_len: usize,
        rule: u32,
        list: *mut u16, list_len: usize,
        answer: *mut u32,
    );
}

// Lists the event types of a rule, three words each.
pub fn events(t: &Tables, rule: u32, list: &mut [u16]) -> [u32; 3] {
    let mut answer = [0; 3];
    unsafe {
        checker_events(
            (t.types.len() / 2) as u32, (t.floors.len() / 2) as u32, (t.relationships.len() / 2) as u32, (t.rules.len() / 2) as u32,
            t.types.as_ptr(), t.types.len(), t.floors.as_ptr(), t.floors.len(), t.relationships.as_ptr(), t.relationships.len(),
            t.rules.as_ptr(), t.rules.len(), t.bodies.as_ptr(), t.bodies.len(),
            rule,
            list.as_mut_ptr(), list.len(),
            answer.as_mut_ptr(),
        );
    }
    answer
}

pub type Call<'a> = Box<dyn FnMut() + 'a>;

// What is timed, with its answer kept from the compiler's sight.
pub fn call<'a, T>(mut f: impl FnMut() -> T + 'a) -> Call<'a> {
    Box::new(move || {
        std::hint::black_box(f());
    })
}

const ROUNDS: usize = 120;

// Microseconds of calls that are compared, round after round. A round times them one after the other, so that what slows the machine down
// for a while slows all of them, and their ratio within a round stands. Groups of such calls take turns, so that each meets the whole run.
// Of each group the quarter of the rounds is kept that took least: those in which nothing else used the processor's caches.
pub fn rounds(groups: &mut [Vec<Call>]) -> Vec<Vec<Vec<f64>>> {
    // so many repeats that each call is timed over half a millisecond or more
    let repeats: Vec<Vec<u32>> = groups.iter_mut().map(|g| g.iter_mut().map(|f| 1 + (500.0 / micros(5, f)) as u32).collect()).collect();
    let mut figures = vec![vec![]; groups.len()];
    for _ in 0..ROUNDS {
        for (i, group) in groups.iter_mut().enumerate() {
            figures[i].push(group.iter_mut().zip(&repeats[i]).map(|(f, n)| micros(*n, f)).collect::<Vec<f64>>());
        }
    }
    for group in &mut figures {
        group.sort_by(|a, b| a.iter().sum::<f64>().total_cmp(&b.iter().sum()));
        group.truncate(ROUNDS / 4);
    }
    figures
}

// The first call is not timed: it brings the caches to where the call's own repeats find them.
fn micros(repeats: u32, f: &mut Call) -> f64 {
    f();
    let start = processor_time();
    for _ in 0..repeats {
        f();
    }
    (processor_time() - start) / repeats as f64
}

extern "C" {
    fn clock_gettime(clock: i32, seconds_and_nanoseconds: *mut [i64; 2]) -> i32;
}

// Microseconds that this thread ran, without those in which others had the processor.
fn processor_time() -> f64 {
    const THREAD: i32 = 3; // Linux's CLOCK_THREAD_CPUTIME_ID
    let mut t = [0; 2];
    assert_eq!(unsafe { clock_gettime(THREAD, &mut t) }, 0);
    t[0] as f64 * 1e6 + t[1] as f64 / 1e3
}

// The median of a figure over some rounds.
pub fn median(rounds: &[Vec<f64>], figure: impl Fn(&[f64]) -> f64) -> f64 {
    let mut figures: Vec<f64> = rounds.iter().map(|r| figure(r)).collect();
    figures.sort_by(f64::total_cmp);
    figures[figures.len() / 2]
}
