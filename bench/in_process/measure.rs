//! Answers step files in process, by the library and by the Rust, and prints the CPU time of both.
//!
//!     measure LEAST < LIST
//!
//! A line of LIST has the paths of files that are measured together, with tabs between. For each line it prints ours and then the Rust's:
//! the median seconds of a run over the files, the runs, and the number of lines of the answers; and then these lines, ours first. Each
//! runs until it has had LEAST seconds and three runs, or ten times LEAST; of two that run on, the one with less CPU time so far is next.
#[path = "../../examples/rust/weldrika.rs"]
mod weldrika;

use std::io::{BufRead, Write};

const FEWEST: usize = 3;
const STACK: usize = 1 << 30; // the Rust's terms recurse deeply

struct Side {
    answer: fn(&[u8]) -> String,
    seconds: Vec<f64>,
    total: f64,
}

impl Side {
    fn new(answer: fn(&[u8]) -> String) -> Self {
        Side { answer, seconds: Vec::new(), total: 0.0 }
    }

    fn run(&mut self, files: &[Vec<u8>]) {
        let start = cpu_seconds();
        for file in files {
            std::hint::black_box((self.answer)(std::hint::black_box(file)));
        }
        let seconds = cpu_seconds() - start;
        self.seconds.push(seconds);
        self.total += seconds;
    }

    fn needs_more(&self, least: f64) -> bool {
        self.total < least || self.seconds.len() < FEWEST && self.total < 10.0 * least
    }

    fn median(&self) -> f64 {
        let mut sorted = self.seconds.clone();
        sorted.sort_by(f64::total_cmp);
        (sorted[(sorted.len() - 1) / 2] + sorted[sorted.len() / 2]) / 2.0
    }

    fn text(&self, files: &[Vec<u8>]) -> String {
        files.iter().map(|file| (self.answer)(file)).collect()
    }
}

/// CPU time of this process.
fn cpu_seconds() -> f64 {
    #[repr(C)]
    struct Time {
        seconds: i64,
        nanoseconds: i64,
    }
    extern "C" {
        fn clock_gettime(clock: i32, time: *mut Time) -> i32;
    }
    const CLOCK_PROCESS_CPUTIME_ID: i32 = 2;
    let mut time = Time { seconds: 0, nanoseconds: 0 };
    assert_eq!(unsafe { clock_gettime(CLOCK_PROCESS_CPUTIME_ID, &mut time) }, 0);
    time.seconds as f64 + time.nanoseconds as f64 * 1e-9
}

fn by_the_rust(file: &[u8]) -> String {
    oracle::answer_text(file).expect("a pool that the Rust loads")
}

fn measure(files: &[Vec<u8>], least: f64) -> std::io::Result<()> {
    let mut sides = [Side::new(weldrika::answer_file), Side::new(by_the_rust)];
    let texts = sides.each_ref().map(|side| side.text(files));
    let next = |a: &&mut Side, b: &&mut Side| a.total.total_cmp(&b.total);
    while let Some(side) = sides.iter_mut().filter(|side| side.needs_more(least)).min_by(next) {
        side.run(files);
    }
    let mut out = std::io::stdout().lock();
    for (side, text) in sides.iter().zip(&texts) {
        write!(out, "{} {} {} ", side.median(), side.seconds.len(), text.lines().count())?;
    }
    write!(out, "\n{}{}", texts[0], texts[1])?;
    out.flush()
}

fn run() -> std::io::Result<()> {
    let least = std::env::args().nth(1).and_then(|text| text.parse().ok()).expect("LEAST");
    for line in std::io::stdin().lock().lines() {
        let files: Vec<Vec<u8>> = line?.split('\t').map(std::fs::read).collect::<Result<_, _>>()?;
        measure(&files, least)?;
    }
    Ok(())
}

fn main() -> std::io::Result<()> {
    std::panic::set_hook(Box::new(|_| ())); // the Rust stops at an empty `or`, which is caught and counts as an answer
    std::thread::Builder::new().stack_size(STACK).spawn(run)?.join().expect("measured")
}
