//! Times each call of the library against the rival, and measures the stack a call uses.
//!
//! `bench [seconds]`: seconds to spend on each call at each size, 0.5 if not given.
//! Library and rival are timed in turns, so that both meet the same weather on the machine; of
//! many short runs the best counts, since everything else on the machine only adds time.

use hjerringsel::calls::{Calls, LIBRARY, RIVAL};
use hjerringsel::generate::right_draft_of;
use hjerringsel::orders::right_order;
use hjerringsel::plates::plate_a;
use hjerringsel::random::Random;
use hjerringsel::second::Sheet;
use std::hint::black_box;
use std::time::{Duration, Instant};

#[path = "bench/stack.rs"]
mod stack;

/// A sheet to time with, its lists, and room for what is written.
pub struct Case {
    name: &'static str,
    sheet: Vec<u8>,
    links: usize,
    /// A right list for Play; Frame gets its first half.
    order: Vec<u16>,
}

impl Case {
    fn new(name: &'static str, sheet: Vec<u8>) -> Case {
        let content = Sheet::read(&sheet).expect("only right sheets are timed");
        let order = right_order(&content, &mut Random::new(3));
        Case { name, links: content.links.len(), order, sheet }
    }

    fn half(&self) -> &[u16] {
        &self.order[..self.links / 2]
    }
}

/// One call, made once on a case; the answer goes to where the compiler can't leave it out.
type Timed = fn(&Calls, &Case, &mut [u8], &mut [u16]);

const CALLS: [(&str, Timed); 5] = [
    ("Check", |calls, case, _, _| {
        let _ = black_box((calls.check)(black_box(&case.sheet)));
    }),
    ("Next", |calls, case, out, _| {
        let _ = black_box((calls.next)(black_box(&case.sheet), out));
    }),
    ("Play", |calls, case, out, _| {
        let _ = black_box((calls.play)(black_box(&case.sheet), &case.order, out));
    }),
    ("Frame", |calls, case, out, _| {
        let _ = black_box((calls.frame)(black_box(&case.sheet), case.half(), out));
    }),
    ("House", |calls, case, _, numbers| {
        let _ = black_box((calls.house)(black_box(&case.sheet), numbers));
    }),
];

/// Buffers that both implementations write to in turn.
struct Buffers {
    bytes: Vec<u8>,
    numbers: Vec<u16>,
}

fn time_of(calls: &Calls, timed: Timed, case: &Case, buffers: &mut Buffers, repeats: u32) -> Duration {
    let start = Instant::now();
    for _ in 0..repeats {
        timed(calls, case, &mut buffers.bytes, &mut buffers.numbers);
    }
    start.elapsed()
}

/// Repeats that take a quarter of a millisecond or so: long for the clock, short for the machine.
fn repeats_for(calls: &Calls, timed: Timed, case: &Case, buffers: &mut Buffers) -> u32 {
    let mut repeats = 1;
    while time_of(calls, timed, case, buffers, repeats) < Duration::from_micros(250) {
        repeats *= 2;
    }
    repeats
}

/// Best nanoseconds a call, of the library and of the rival, in turns.
fn best_of(timed: Timed, case: &Case, seconds: f64) -> [f64; 2] {
    let mut buffers = Buffers { bytes: vec![0; case.sheet.len()], numbers: vec![0; case.links] };
    let sides = [LIBRARY, RIVAL];
    let repeats = sides.map(|calls| repeats_for(&calls, timed, case, &mut buffers));
    let mut best = [f64::INFINITY; 2];
    let start = Instant::now();
    while start.elapsed().as_secs_f64() < seconds {
        for (side, calls) in sides.iter().enumerate() {
            let spent = time_of(calls, timed, case, &mut buffers, repeats[side]);
            best[side] = best[side].min(spent.as_nanos() as f64 / f64::from(repeats[side]));
        }
    }
    best
}

fn print_call(name: &str, cases: &[Case], seconds: f64) {
    let mut before: Option<(usize, [f64; 2])> = None;
    for case in cases {
        let timed = CALLS.iter().find(|call| call.0 == name).expect("a call of the table").1;
        let best = best_of(timed, case, seconds);
        let per_link = best.map(|time| time / case.links as f64);
        let growth = match before {
            None => String::new(),
            Some((links, times)) => {
                // Exponent of the growth between two sizes: 1 is in proportion to L.
                let rise = |side: usize| {
                    (best[side] / times[side]).ln() / (case.links as f64 / links as f64).ln()
                };
                format!("{:7.2} {:7.2}", rise(0), rise(1))
            }
        };
        println!(
            "{name:6} {:22} {:10.1} {:10.1} {:7.2} {:9.2} {:9.2} {growth}",
            case.name, best[0], best[1], best[0] / best[1], per_link[0], per_link[1]
        );
        before = Some((case.links, best));
    }
}

fn main() {
    let seconds = std::env::args().nth(1).map_or(0.5, |text| {
        text.parse().unwrap_or_else(|_| {
            eprintln!("usage: bench [seconds a call and size]");
            std::process::exit(2)
        })
    });
    let mut random = Random::new(11);
    let cases = [
        Case::new("plate A", plate_a().write()),
        Case::new("16 nodes, 60 links", right_draft_of(16, 60, &mut random).write()),
        Case::new("64 nodes, 512 links", right_draft_of(64, 512, &mut random).write()),
    ];
    println!("best ns a call; growth is the power of L between this size and the one above it");
    println!(
        "{:6} {:22} {:>10} {:>10} {:>7} {:>9} {:>9} {:>15}",
        "call", "sheet", "library", "rival", "ratio", "lib/link", "riv/link", "growth lib riv"
    );
    for (name, _) in CALLS {
        print_call(name, &cases, seconds);
    }
    stack::print_deepest(&cases);
}
