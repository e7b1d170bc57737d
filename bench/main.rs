//! Runs the same calls through the library and through a plain Rust program, and prints how long each took at least. See docs/BENCHMARK.md.

mod numbers;
mod plain;

use std::time::{Duration, Instant};

use numbers::{AnswerNumbers, CallNumbers, Exchange};

const SHIMS: u32 = 8;
const LINES: u32 = 64;
const CALLS: usize = 1_000_000;
const RUNS: usize = 101;

unsafe extern "C" {
    fn gombultsei_run(shims: u32, lines: u32, exchanges: *mut Exchange, count: usize) -> u8;
}

/// The library's call.
fn linked(shims: u32, lines: u32, exchanges: &mut [Exchange]) -> u8 {
    // SAFETY: the declaration fits the export, which asks no more than that the slice is one.
    unsafe { gombultsei_run(shims, lines, exchanges.as_mut_ptr(), exchanges.len()) }
}

/// A fixed sequence of numbers (splitmix64).
struct Numbers(u64);

impl Numbers {
    fn next(&mut self) -> u64 {
        self.0 = self.0.wrapping_add(0x9e37_79b9_7f4a_7c15);
        let mut z = self.0;
        z = (z ^ (z >> 30)).wrapping_mul(0xbf58_476d_1ce4_e5b9);
        z = (z ^ (z >> 27)).wrapping_mul(0x94d0_49bb_1331_11eb);
        z ^ (z >> 31)
    }

    fn below(&mut self, bound: u32) -> u32 {
        ((self.next() >> 32) * u64::from(bound) >> 32) as u32
    }

    /// One of these, and mostly an early one.
    fn one_of<T: Copy>(&mut self, weighted: &[(u32, T)]) -> T {
        let total = weighted.iter().map(|(weight, _)| weight).sum();
        let mut at = self.below(total);
        for &(weight, item) in weighted {
            if at < weight {
                return item;
            }
            at -= weight;
        }
        unreachable!("below the sum of the weights")
    }
}

/// The calls: every kind, every strength and one that is none, now and then a shim or a line that is not on the board.
fn make_calls() -> Vec<CallNumbers> {
    let mut numbers = Numbers(1);
    let kinds = [
        (220, numbers::LOAD),
        (90, numbers::STORE),
        (3, numbers::FENCE),
        (40, numbers::EVICT),
        (160, numbers::UP),
        (490, numbers::DOWN),
    ];
    let loads = [(40, 0), (40, 1), (1, 2), (15, 3), (1, 4)];
    let stores = [(50, 0), (1, 1), (40, 2), (8, 3), (1, 4)];
    let fences = [(1, 0), (1, 1), (1, 2), (30, 3), (1, 4)];
    (0..CALLS)
        .map(|_| {
            let kind = numbers.one_of(&kinds);
            CallNumbers {
                kind,
                strength: match kind {
                    numbers::LOAD => numbers.one_of(&loads),
                    numbers::STORE => numbers.one_of(&stores),
                    numbers::FENCE => numbers.one_of(&fences),
                    _ => 0,
                },
                shim: if numbers.below(500) == 0 {
                    SHIMS
                } else {
                    numbers.below(SHIMS)
                },
                line: if numbers.below(500) == 0 {
                    LINES
                } else {
                    numbers.below(LINES)
                },
                value: numbers.next() as u32,
            }
        })
        .collect()
}

/// How long the calls take. The list is written anew before the clock starts, so that each of its pages is there, and the answers are none.
fn timed(
    run: fn(u32, u32, &mut [Exchange]) -> u8,
    calls: &[CallNumbers],
    exchanges: &mut [Exchange],
) -> Duration {
    for (exchange, &call) in exchanges.iter_mut().zip(calls) {
        let answer = AnswerNumbers {
            kind: u32::MAX,
            ..AnswerNumbers::default()
        };
        *exchange = Exchange { call, answer };
    }
    let start = Instant::now();
    let number = run(SHIMS, LINES, exchanges);
    let took = start.elapsed();
    assert_eq!(number, 0, "no board was made");
    took
}

fn print_shares(exchanges: &[Exchange]) {
    println!("| call | calls | accepted | share |");
    println!("|---|---|---|---|");
    let row = |name: &str, is_meant: &dyn Fn(u8) -> bool| {
        let meant = || {
            exchanges
                .iter()
                .filter(|exchange| is_meant(exchange.call.kind))
        };
        let made = meant().count();
        let accepted = meant()
            .filter(|exchange| exchange.answer.kind != numbers::REFUSED)
            .count();
        println!(
            "| {name} | {made} | {accepted} | {:.3} |",
            accepted as f64 / made as f64
        );
    };
    let names = ["load", "store", "fence", "evict", "up", "down"];
    for (kind, name) in (numbers::LOAD..).zip(names) {
        row(name, &|other| other == kind);
    }
    row("all", &|_| true);
}

fn main() {
    let runs = std::env::args()
        .nth(1)
        .map_or(RUNS, |word| word.parse().expect("how many runs"));
    let calls = make_calls();
    // One list for both programs: they find the same pages.
    let mut exchanges = vec![Exchange::default(); CALLS];
    let mut least = [Duration::MAX; 2];
    for _ in 0..runs {
        least[0] = least[0].min(timed(linked, &calls, &mut exchanges));
        let ours = exchanges.clone();
        least[1] = least[1].min(timed(plain::run, &calls, &mut exchanges));
        for (our, their) in ours.iter().zip(&exchanges) {
            assert_eq!(our, their);
        }
    }

    print_shares(&exchanges);
    println!();
    println!("| program | least of {runs} runs, ms | ns a call |");
    println!("|---|---|---|");
    let [ours, theirs] = least.map(|time| time.as_secs_f64());
    for (name, time) in [("library", ours), ("Rust", theirs)] {
        println!(
            "| {name} | {:.2} | {:.1} |",
            time * 1e3,
            time * 1e9 / CALLS as f64
        );
    }
    println!();
    println!(
        "All {CALLS} answers are alike. The library takes {:.3} times the time of the Rust program.",
        ours / theirs
    );
}
