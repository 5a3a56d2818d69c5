// Visits to a fleet of parks, on one core and on all of them. Each thread has parks of its own, and nothing is shared.
mod checker;
#[path = "../bench/fitters.rs"]
mod fitters;
#[allow(dead_code)]
mod lent;
#[allow(dead_code)]
#[path = "../bench/park.rs"]
mod park;
#[allow(dead_code)]
#[path = "../bench/spelling.rs"]
mod spelling;
#[allow(dead_code)]
#[path = "../bench/visits.rs"]
mod visits;

use checker::{Event, Park, Refusal, Verdict, STACK};
use std::thread::{self, Builder};
use std::time::{Duration, Instant};

const PARKS: usize = 64;
const TIME: Duration = Duration::from_secs(1);

// A visit that leaves its park such that the same visit gives the same answer again, for as long as it is wanted.
struct Repeated {
    name: &'static str,
    events: Vec<Event>,
    answer: Result<Verdict, Refusal>,
}

// Cells that are set again; and visits that are broken or refused, and so leave the park as it was.
fn repeated(park: &Park) -> Vec<Repeated> {
    let kept = [visits::accepted().swap_remove(0), visits::broken().swap_remove(0), visits::refused().swap_remove(0)];
    let visit = |v: &visits::Visit| {
        let (events, mut at) = (lent::events(&v.events), park.clone());
        let answers = [0; 2].map(|_| at.check(&events));
        assert_eq!(answers[0], answers[1], "{}", v.name);
        Repeated { name: v.name, events, answer: answers[0] }
    };
    kept.iter().map(visit).collect()
}

// Visits that one thread makes to its parks, one park after the other, until the time is over; and the processor time that they took.
fn visits_of(mut parks: Vec<Park>, visit: &Repeated) -> (f64, f64) {
    let (start, used) = (Instant::now(), processor_time());
    let mut count = 0.0;
    while start.elapsed() < TIME {
        for park in &mut parks {
            assert_eq!(park.check(&visit.events), visit.answer);
            count += 1.0;
        }
    }
    (count, processor_time() - used)
}

// Visits a second of all threads together: by the clock, and by the time in which each thread had a core.
fn visits_a_second(threads: usize, park: &Park, visit: &Repeated) -> [f64; 2] {
    let start = Instant::now();
    let done: Vec<(f64, f64)> = thread::scope(|scope| {
        let work = || visits_of(vec![park.clone(); PARKS / threads], visit);
        let started: Vec<_> = (0..threads).map(|_| Builder::new().stack_size(STACK).spawn_scoped(scope, work).expect("a thread")).collect();
        started.into_iter().map(|t| t.join().expect("visits")).collect()
    });
    let by_clock = done.iter().map(|d| d.0).sum::<f64>() / start.elapsed().as_secs_f64();
    [by_clock, done.iter().map(|d| d.0 / d.1).sum()]
}

extern "C" {
    fn clock_gettime(clock: i32, seconds_and_nanoseconds: *mut [i64; 2]) -> i32;
}

// Seconds that this thread ran, without those in which others had the processor.
fn processor_time() -> f64 {
    const THREAD: i32 = 3; // Linux's CLOCK_THREAD_CPUTIME_ID
    let mut t = [0; 2];
    assert_eq!(unsafe { clock_gettime(THREAD, &mut t) }, 0);
    t[0] as f64 + t[1] as f64 / 1e9
}

fn main() {
    let cores = thread::available_parallelism().map_or(1, |n| n.get()).min(PARKS);
    println!("{PARKS} parks, {cores} cores; visits a second");
    println!("                                                               by the clock             by processor time");
    println!("objects  links  visit                                events   one core  all cores     one core  all cores");
    for sections in [&visits::SMALL[..], &visits::LARGE] {
        let plain = visits::wind_park(sections);
        let park = lent::park(&plain);
        for visit in repeated(&park) {
            let ([one, own], [all, of_all]) = (visits_a_second(1, &park, &visit), visits_a_second(cores, &park, &visit));
            print!("{:7}  {:5}  {:36} {:6}", plain.objects.len(), plain.links.len(), visit.name, visit.events.len());
            println!("   {one:8.0}  {all:9.0}     {own:8.0}  {of_all:9.0}");
        }
    }
}
