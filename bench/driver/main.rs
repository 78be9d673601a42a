//! Measures each rewriting, row to row, through the static library, against a plain C function, the published Rust
//! (row to row, and tree to tree) and a copy of the row. Prints a line of comma-separated values for each kind of
//! rows: nanoseconds for a row, the least of all rounds. Usage: driver [ROUNDS [--annotated] [OP..]]
//! With --annotated every quantifier of the rows has annotations. The Rust has no reader of names: for named, whose rows
//! are those of bind with names for indices, its values are left out.

mod one_point;
mod rows;
mod tree;

use std::collections::HashMap;
use std::hint::black_box;
use std::time::Instant;

use rossi::formula::{Expression, Predicate};
use rossi::formula::subst;
use rows::{Class, Rng, Writer};
use tree::{Trees, put_pred, spelled};

unsafe extern "C" {
    fn plain_shift(row: *const u32, n: usize, offset: i32, out: *mut u32, room: usize) -> u64;
    fn plain_bind(names: *const u32, k: usize, row: *const u32, n: usize, out: *mut u32, room: usize) -> u64;
    fn plain_free(
        list: *const u32,
        k: usize,
        row: *const u32,
        n: usize,
        work: *mut u32,
        w: usize,
        out: *mut u32,
        room: usize,
    ) -> u64;
    fn plain_fill(
        list: *const u32,
        k: usize,
        row: *const u32,
        n: usize,
        work: *mut u32,
        w: usize,
        out: *mut u32,
        room: usize,
    ) -> u64;
    fn plain_prune(row: *const u32, n: usize, out: *mut u32, room: usize) -> u64;
    fn plain_named(row: *const u32, n: usize, out: *mut u32, room: usize) -> u64;
    fn plain_point(row: *const u32, n: usize, work: *mut u32, w: usize, out: *mut u32, room: usize) -> u64;
}

#[derive(Clone, Copy, PartialEq)]
enum Op {
    Shift,
    Bind,
    Named,
    Free,
    Fill,
    Prune,
    Point,
}

const OPS: [(Op, &str); 7] = [
    (Op::Shift, "shift"),
    (Op::Bind, "bind"),
    (Op::Named, "named"),
    (Op::Free, "free"),
    (Op::Fill, "fill"),
    (Op::Prune, "prune"),
    (Op::Point, "point"),
];

/// A row, and the list that goes with it.
struct Job {
    row: Vec<u32>,
    list: Vec<u32>,
}

/// A job as the Rust has it.
struct TreeJob {
    form: Predicate,
    map: HashMap<String, Expression>,
    names: Vec<String>,
    places: Vec<Option<Expression>>,
}

struct Rows {
    work: Vec<u32>,
    out: Vec<u32>,
}

fn list_for(op: Op) -> Vec<u32> {
    match op {
        Op::Bind => vec![3, 7, 1, 12],
        Op::Free => vec![3, 2, 0, 7, 1, 99, 1, 2, 3, 12, 201, 2, 0, 1, 5],
        Op::Fill => vec![0, 1, 1, 5, 0, 1, 2, 3],
        _ => vec![],
    }
}

fn make(op: Op, class: Class, rng: &mut Rng) -> Job {
    let head: &[u32] = match (op, class.noted) {
        (Op::Fill | Op::Point, false) => &[852, 4, 1, 2, 3, 4],
        (Op::Fill | Op::Point, true) => &[862, 4, 1, 0, 2, 1, 2, 3, 3, 1, 752, 1, 5, 4, 0],
        (Op::Prune, false) => &[852, 8, 1, 2, 3, 4, 5, 6, 7, 8],
        (Op::Prune, true) => &[862, 8, 1, 0, 2, 1, 2, 3, 3, 1, 752, 1, 5, 4, 0, 5, 0, 6, 1, 1, 5, 7, 1, 2, 0, 8, 0],
        _ => &[],
    };
    let last: &[u32] = if op == Op::Point { &[101, 2, 1, 1, 7] } else { &[] };
    let even = if op == Op::Prune { 8 } else { 0 };
    let mut w = Writer::new(rng, head, class, 10, even);
    w.conjunction(last);
    Job { row: w.row, list: list_for(op) }
}

fn library(op: Op, job: &Job, r: &mut Rows) -> Option<usize> {
    match op {
        Op::Shift => sogbayile::shift(&job.row, 1, &mut r.out),
        Op::Bind => sogbayile::bind(&job.list, &job.row, &mut r.out),
        Op::Named => sogbayile::named(&job.row, &mut r.out),
        Op::Free => sogbayile::free(&job.list, &job.row, &mut r.work, &mut r.out),
        Op::Fill => sogbayile::fill(&job.list, &job.row, &mut r.work, &mut r.out),
        Op::Prune => sogbayile::prune(&job.row, &mut r.out),
        Op::Point => sogbayile::point(&job.row, &mut r.work, &mut r.out),
    }
    .ok()
}

fn plain(op: Op, job: &Job, r: &mut Rows) -> Option<usize> {
    let (row, n) = (job.row.as_ptr(), job.row.len());
    let (list, k) = (job.list.as_ptr(), job.list.len());
    let (work, w) = (r.work.as_mut_ptr(), r.work.len());
    let (out, room) = (r.out.as_mut_ptr(), r.out.len());
    let answer = unsafe {
        match op {
            Op::Shift => plain_shift(row, n, 1, out, room),
            Op::Bind => plain_bind(list, k, row, n, out, room),
            Op::Named => plain_named(row, n, out, room),
            Op::Free => plain_free(list, k, row, n, work, w, out, room),
            Op::Fill => plain_fill(list, k, row, n, work, w, out, room),
            Op::Prune => plain_prune(row, n, out, room),
            Op::Point => plain_point(row, n, work, w, out, room),
        }
    };
    (answer >> 32 == 0).then_some(answer as usize)
}

/// Whether the Rust has the rewriting.
fn in_rust(op: Op) -> bool {
    op != Op::Named
}

fn tree_job(op: Op, job: &Job, trees: &Trees) -> TreeJob {
    let mut at = 0;
    let form = trees.pred(&job.row, &mut at);
    let mut t = TreeJob { form, map: HashMap::new(), names: vec![], places: vec![] };
    let mut at = 0;
    match op {
        Op::Bind => t.names = job.list.iter().map(|k| spelled(*k)).collect(),
        Op::Free => {
            while at < job.list.len() {
                let name = spelled(job.list[at]);
                at += 1;
                t.map.insert(name, trees.expr(&job.list, &mut at));
            }
        }
        Op::Fill => {
            while at < job.list.len() {
                at += 1;
                t.places.push((job.list[at - 1] == 1).then(|| trees.expr(&job.list, &mut at)));
            }
        }
        _ => {}
    }
    t
}

fn rewrite(op: Op, t: &TreeJob) -> Predicate {
    match op {
        Op::Shift => t.form.shift_bound_identifiers(1),
        Op::Bind => {
            let names: Vec<&str> = t.names.iter().map(String::as_str).collect();
            t.form.bind_idents(&names)
        }
        Op::Free => t.form.substitute_free_idents(&t.map),
        Op::Fill => t.form.instantiate(&t.places),
        Op::Prune => subst::oracle_access::prune(&t.form).unwrap().unwrap(),
        Op::Point => one_point::oracle_access::point(&t.form).unwrap(),
        Op::Named => unreachable!("the Rust has no reader of names"),
    }
}

fn rust_rows(op: Op, job: &Job, trees: &Trees, out: &mut Vec<u32>) {
    let t = tree_job(op, job, trees);
    out.clear();
    put_pred(&rewrite(op, &t), out);
}

/// Jobs of the class that the rewriting answers, whose answers all sides agree on.
fn jobs(op: Op, class: Class, count: usize, rng: &mut Rng, trees: &Trees, r: &mut Rows) -> Vec<Job> {
    let mut made = Vec::new();
    let mut tried = 0;
    while made.len() < count {
        tried += 1;
        assert!(tried < 200 * count, "no rows of this kind");
        let job = make(op, class, rng);
        let Some(n) = library(op, &job, r) else { continue };
        let want = r.out[..n].to_vec();
        assert_eq!(plain(op, &job, r), Some(n), "{:?}", job.row);
        assert_eq!(want, r.out[..n], "{:?}", job.row);
        if in_rust(op) {
            let mut got = Vec::new();
            rust_rows(op, &job, trees, &mut got);
            assert_eq!(want, got, "{:?}", job.row);
        }
        made.push(job);
    }
    made
}

#[repr(C)]
struct Timespec {
    seconds: i64,
    nanoseconds: i64,
}

unsafe extern "C" {
    fn clock_gettime(clock: i32, time: *mut Timespec) -> i32;
}

/// Nanoseconds of processor time that this thread has taken.
fn processor_time() -> f64 {
    const THREAD_CPUTIME: i32 = 3;
    let mut t = Timespec { seconds: 0, nanoseconds: 0 };
    assert_eq!(unsafe { clock_gettime(THREAD_CPUTIME, &mut t) }, 0);
    t.seconds as f64 * 1e9 + t.nanoseconds as f64
}

/// Keeps, for each part of the rows, the least time of all rounds.
struct Least(Vec<f64>);

impl Least {
    /// The wall clock reads short parts closely; the processor time of a long part, of a millisecond and more, leaves
    /// other programs' turns out.
    fn time(&mut self, part: usize, pass: impl FnOnce()) {
        let taken = processor_time();
        let start = Instant::now();
        pass();
        let wall = start.elapsed().as_nanos() as f64;
        let taken = processor_time() - taken;
        let time = if wall > 1e6 && taken > 0.0 { wall.min(taken) } else { wall };
        self.0[part] = self.0[part].min(time);
    }
}

/// The mean number of words, and nanoseconds for a row: each side goes over all rows in turn, round by round. Parts
/// of some thousand words are timed, so that what disturbs one part of one round is left out. A side that has not the
/// rewriting takes for ever.
fn measure(op: Op, class: Class, rounds: usize, rng: &mut Rng, trees: &Trees, r: &mut Rows) -> (f64, [f64; 5]) {
    let count = if class.words <= 200 { 64 } else if class.words <= 2000 { 24 } else { 8 };
    let jobs = jobs(op, class, count, rng, trees, r);
    let in_rust = in_rust(op);
    let tree_jobs: Vec<TreeJob> = jobs.iter().filter(|_| in_rust).map(|j| tree_job(op, j, trees)).collect();
    let words: usize = jobs.iter().map(|j| j.row.len()).sum();
    let part = (4000 / class.words).max(1);
    let mut spare = Vec::with_capacity(10000);
    let mut least: [Least; 5] = std::array::from_fn(|_| Least(vec![f64::INFINITY; count.div_ceil(part)]));
    for _ in 0..rounds {
        for (i, jobs) in jobs.chunks(part).enumerate() {
            least[0].time(i, || {
                for j in jobs {
                    black_box(library(op, black_box(j), r));
                }
            });
        }
        for (i, jobs) in jobs.chunks(part).enumerate() {
            least[1].time(i, || {
                for j in jobs {
                    black_box(plain(op, black_box(j), r));
                }
            });
        }
        for (i, jobs) in jobs.chunks(part).enumerate().filter(|_| in_rust) {
            least[2].time(i, || {
                for j in jobs {
                    rust_rows(op, black_box(j), trees, &mut spare);
                }
            });
        }
        for (i, jobs) in tree_jobs.chunks(part).enumerate() {
            least[3].time(i, || {
                for t in jobs {
                    black_box(rewrite(op, black_box(t)));
                }
            });
        }
        for (i, jobs) in jobs.chunks(part).enumerate() {
            least[4].time(i, || {
                for j in jobs {
                    r.out[..j.row.len()].copy_from_slice(black_box(&j.row));
                    black_box(&mut r.out);
                }
            });
        }
    }
    let times = least.map(|l| l.0.iter().sum::<f64>() / count as f64);
    (words as f64 / count as f64, times)
}

fn run() {
    let rounds: usize = std::env::args().nth(1).map_or(40, |a| a.parse().expect("a number of rounds"));
    let trees = Trees::new();
    let mut r = Rows { work: vec![0; sogbayile::WORK_WORDS], out: vec![0; sogbayile::MAX_WORDS] };
    println!("op,words,depth,binders,mean words,library,C,Rust rows,Rust trees,copy");
    let (words, asked): (Vec<String>, Vec<String>) = std::env::args().skip(2).partition(|a| a.starts_with("--"));
    let noted = words.iter().any(|a| a == "--annotated");
    for (op, name) in OPS {
        if !asked.is_empty() && !asked.iter().any(|a| a == name) {
            continue;
        }
        for words in [20, 200, 2000, 7900] {
            for deep in [false, true] {
                for many in [false, true] {
                    let mut rng = Rng(0x9e37_79b9_7f4a_7c15);
                    let class = Class { words, deep, many, noted, named: op == Op::Named };
                    // short rows take more rounds, so that theirs last long enough to meet a quiet moment
                    let rounds = rounds * (2000 / words).clamp(1, 30);
                    let (mean, t) = measure(op, class, rounds, &mut rng, &trees, &mut r);
                    let times = t.map(|t| if t.is_finite() { format!("{t:.1}") } else { String::new() });
                    println!(
                        "{name},{},{},{},{mean:.0},{}",
                        if words == 7900 { 8000 } else { words },
                        if deep { "deep" } else { "shallow" },
                        if many { "many" } else { "few" },
                        times.join(",")
                    );
                }
            }
        }
    }
}

fn main() {
    std::thread::Builder::new().stack_size(1 << 26).spawn(run).unwrap().join().unwrap();
}
