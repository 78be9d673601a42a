//! Runs lists of command lines through the static library and compares the answers: the pairs of lines of
//! tests/cases.txt (a command, and its answer), and the stored list, which the cell program is run on first:
//! the first lines of ../crates/cell/stdin, whose answers are those of ../crates/cell/stdout. Or the pairs of
//! the file that LIST names.

use std::path::{Path, PathBuf};

use sogbayile::text::Runner;

/// How many lines of the cell program's input are the stored list (oracle/sample.py).
const STORED: usize = 3467;

type Pairs = Vec<(String, String)>;

fn read(path: &Path) -> Vec<String> {
    std::fs::read_to_string(path).unwrap().lines().map(String::from).collect()
}

fn pairs(path: &Path) -> Pairs {
    let lines = read(path);
    assert!(lines.len() % 2 == 0, "{}: a command without its answer", path.display());
    lines.chunks(2).map(|pair| (pair[0].clone(), pair[1].clone())).collect()
}

fn stored(cell: &Path) -> Pairs {
    let answers = read(&cell.join("stdout"));
    read(&cell.join("stdin")).into_iter().zip(answers).take(STORED).collect()
}

fn lists() -> Vec<(String, Pairs)> {
    let here = PathBuf::from(env!("CARGO_MANIFEST_DIR"));
    if let Ok(path) = std::env::var("LIST") {
        return vec![(path.clone(), pairs(Path::new(&path)))];
    }
    let cases = here.join("tests/cases.txt");
    let cell = here.join("../crates/cell");
    vec![(cases.display().to_string(), pairs(&cases)), (cell.display().to_string(), stored(&cell))]
}

fn replay((name, pairs): (String, Pairs)) {
    let mut runner = Runner::default();
    let (mut equal, mut different) = (0, 0);
    for (i, (command, answer)) in pairs.iter().enumerate() {
        let got = runner.answer(command);
        if got == *answer {
            equal += 1;
        } else {
            different += 1;
            println!("{name}, line {}: {command}\n  is   {got}\n  asks {answer}", i + 1);
        }
    }
    println!("{name}: {equal} equal, {different} different");
    assert!(different == 0 && equal > 0);
}

// A thread with little stack, so that the library's use of it shows.
#[test]
fn lists_replay() {
    let thread = std::thread::Builder::new().stack_size(512 * 1024);
    thread.spawn(|| lists().into_iter().for_each(replay)).unwrap().join().unwrap();
}
