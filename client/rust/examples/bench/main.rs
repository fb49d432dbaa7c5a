//! How long the library takes, beside ordinary Rust on the same tables.
//!
//!     cargo run --release --example bench [markdown]
//!
//! Each figure is a median. The two sides take turns, so that what else the
//! machine does falls on both.

mod yardstick;

use std::time::Instant;

use sendurafi::{check, messages_len, prove, true_sum, Refusal, Verdict, P};

const VARS: [u32; 4] = [10, 12, 14, 16];
const DEGREES: [u32; 3] = [1, 2, 3];
const TURNS: usize = 31;

/// Microseconds of one call.
type Times = Vec<f64>;

fn numbers(seed: u64, length: usize) -> Vec<u32> {
    let mut state = seed;
    let mut next = || {
        state = state.wrapping_mul(6364136223846793005).wrapping_add(1442695040888963407);
        ((state >> 33) % u64::from(P)) as u32
    };
    (0..length).map(|_| next()).collect()
}

/// Some calls in a row where one is too short for the clock.
fn timed(calls: u32, mut call: impl FnMut()) -> f64 {
    let start = Instant::now();
    for _ in 0..calls {
        call();
    }
    start.elapsed().as_secs_f64() * 1e6 / f64::from(calls)
}

fn median(mut times: Times) -> f64 {
    times.sort_by(f64::total_cmp);
    times[times.len() / 2]
}

/// Library, plain Rust, and the ratio: the median of the turns' own ratios.
struct Beside {
    library: f64,
    plain: f64,
    ratio: f64,
}

fn beside(library: Times, plain: Times) -> Beside {
    let ratios = library.iter().zip(&plain).map(|(x, y)| x / y).collect();
    Beside { library: median(library), plain: median(plain), ratio: median(ratios) }
}

struct Row {
    vars: u32,
    degree: u32,
    prover: Beside,
    checker: Beside,
}

fn measure(vars: u32, degree: u32) -> Result<Row, Refusal> {
    let tables = numbers(u64::from(degree), (degree as usize) << vars);
    let challenges = numbers(7, vars as usize);
    let claim = true_sum(vars, degree, &tables)?;
    let length = messages_len(vars, degree)?;
    let (mut messages, mut plain) = (vec![0; length], vec![0; length]);
    let mut scratch = vec![0; tables.len()];
    let mut room = vec![0; tables.len()];
    let calls = 1 << (16 - vars.min(16));
    let mut times: [Times; 4] = Default::default();
    for _ in 0..TURNS {
        times[0].push(timed(calls, || {
            let done = prove(vars, degree, &tables, &challenges, &mut messages, &mut scratch);
            assert_eq!(done, Ok(()));
        }));
        times[1].push(timed(calls, || {
            yardstick::prove(degree, &tables, &challenges, &mut plain, &mut room);
        }));
        assert_eq!(messages, plain);
        times[2].push(timed(calls, || {
            let verdict = check(vars, degree, &tables, claim, &challenges, &messages);
            assert_eq!(verdict, Ok(Verdict::Accepted));
        }));
        times[3].push(timed(calls, || {
            assert!(yardstick::check(degree, &tables, claim, &challenges, &messages, &mut room));
        }));
    }
    let [a, b, c, d] = times;
    Ok(Row { vars, degree, prover: beside(a, b), checker: beside(c, d) })
}

impl Row {
    fn cells(&self) -> [String; 8] {
        let time = |x: f64| format!("{:.1}", x);
        let ratio = |x: f64| format!("{:.2}", x);
        [
            self.vars.to_string(),
            self.degree.to_string(),
            time(self.prover.library),
            time(self.prover.plain),
            ratio(self.prover.ratio),
            time(self.checker.library),
            time(self.checker.plain),
            ratio(self.checker.ratio),
        ]
    }
}

fn main() -> Result<(), Refusal> {
    // The rows of docs/SPEED.md, or columns to read here.
    let markdown = std::env::args().nth(1).map_or(false, |word| word == "markdown");
    if !markdown {
        println!("microseconds for one call, median of {} turns\n", TURNS);
        println!("              |----------- prover ----------|  |----------- checker ---------|");
        println!("vars  degree     library  plain Rust   ratio      library  plain Rust   ratio");
    }
    for degree in DEGREES {
        for vars in VARS {
            let cells = measure(vars, degree)?.cells();
            if markdown {
                println!("| {} |", cells.join(" | "));
            } else {
                let [m, k, a, b, c, d, e, f] = cells;
                println!("{m:>4}  {k:>6}  {a:>10}  {b:>10}  {c:>6}   {d:>10}  {e:>10}  {f:>6}");
            }
        }
    }
    Ok(())
}
