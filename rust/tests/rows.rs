//! What no command line can reach: short rows, rows lent longer than needed, lift's parts, the dangling set, the
//! set of places.

use sogbayile::{Command, Places, Refusal, MAX_WORDS, WORK_WORDS};

const OLD: u32 = 77;
const EXISTS: [u32; 8] = [852, 1, 9, 101, 2, 0, 2, 2];

#[test]
fn an_answer_and_a_refusal_leave_the_rest() {
    let mut out = [OLD; 10];
    assert_eq!(sogbayile::shift(&EXISTS, -1, &mut out), Ok(8));
    assert_eq!(out, [852, 1, 9, 101, 2, 0, 2, 1, OLD, OLD]);
    let mut out = [OLD; 7];
    assert_eq!(sogbayile::shift(&EXISTS, -1, &mut out), Err(Refusal::OutShort));
    assert_eq!(sogbayile::shift(&EXISTS, -2, &mut out), Err(Refusal::Capture));
    assert_eq!(sogbayile::shift(&[], 0, &mut out), Err(Refusal::NotAForm(0)));
    assert_eq!(sogbayile::shift(&[852, 1, 9, 101, 2, 0, 610], 0, &mut out), Err(Refusal::NotAForm(6)));
    assert_eq!(sogbayile::shift(&[0; MAX_WORDS + 1], 0, &mut out), Err(Refusal::TooLong));
    assert_eq!(sogbayile::prune(&[610], &mut out), Err(Refusal::NotQuantified));
    assert_eq!(sogbayile::bind(&[4, 4], &EXISTS, &mut out), Err(Refusal::BadNames));
    assert_eq!(out, [OLD; 7]);
}

#[test]
fn work_rows() {
    let (mut work, mut out) = (vec![OLD; WORK_WORDS], [OLD; 8]);
    let short = WORK_WORDS - 1;
    assert_eq!(sogbayile::point(&EXISTS, &mut work[..short], &mut out), Err(Refusal::WorkShort));
    assert_eq!(sogbayile::point(&EXISTS, &mut work, &mut out), Ok(1));
    assert_eq!(out, [610, OLD, OLD, OLD, OLD, OLD, OLD, OLD]);
    assert_eq!(sogbayile::free(&[], &EXISTS, &mut work[..short], &mut out), Err(Refusal::WorkShort));
    assert_eq!(sogbayile::free(&[], &EXISTS, &mut work, &mut out), Ok(8));
    assert_eq!(out, EXISTS);
    assert_eq!(sogbayile::fill(&[0], &EXISTS, &mut work[..short], &mut out), Err(Refusal::WorkShort));
    assert_eq!(sogbayile::fill(&[0, 0], &EXISTS, &mut work, &mut out), Err(Refusal::BadCount));
    assert_eq!(sogbayile::fill(&[1, 1, 7], &EXISTS, &mut work, &mut out), Ok(5));
    assert_eq!(out[..5], [101, 1, 7, 2, 1]);
}

#[test]
fn commands_by_number() {
    let cases: [(Command, &[u32], &[u32], &[u32]); 8] = [
        (Command::Shift, &[], &EXISTS, &[852, 1, 9, 101, 2, 0, 2, 1]),
        (Command::Free, &[4, 2, 0], &[9, 1, 4], &[9, 2, 0]),
        (Command::Bind, &[4, 5], &[101, 1, 4, 2, 0], &[101, 2, 1, 2, 2]),
        (Command::Fill, &[1, 1, 7], &EXISTS, &[101, 1, 7, 2, 1]),
        (Command::Prune, &[], &[852, 2, 4, 5, 101, 2, 1, 1, 7], &[852, 1, 4, 101, 2, 0, 1, 7]),
        (Command::Point, &[], &[852, 1, 4, 101, 2, 0, 1, 7], &[610]),
        (Command::Member, &[], &[107, 1, 7, 803, 0, 1, 4, 610, 3, 5], &[852, 1, 4, 351, 2, 610, 101, 3, 5, 1, 7]),
        (Command::Named, &[], &[852, 2, 4, 5, 101, 1, 4, 1, 6], &[852, 2, 4, 5, 101, 2, 1, 1, 6]),
    ];
    let mut work = vec![OLD; WORK_WORDS];
    for (command, list, row, answer) in cases {
        for room in [answer.len() - 1, answer.len(), answer.len() + 1] {
            let (mut out, mut by_number) = (vec![OLD; room], vec![OLD; room]);
            let got = command.call(-1, list, row, &mut work, &mut out);
            assert_eq!(got, if room < answer.len() { Err(Refusal::OutShort) } else { Ok(answer.len()) });
            assert!(got.is_err() || out[..answer.len()] == *answer);
            assert_eq!(sogbayile::run(command, -1, list, row, &mut work, &mut by_number), got);
            assert_eq!(by_number, out);
        }
    }
}

#[test]
fn every_command_by_number() {
    // every command on a list and a row of each
    let cases: [(&[u32], &[u32]); 8] = [
        (&[], &EXISTS),
        (&[4, 2, 0], &[9, 1, 4]),
        (&[4, 5], &[101, 1, 4, 2, 0]),
        (&[1, 1, 7], &EXISTS),
        (&[], &[852, 2, 4, 5, 101, 2, 1, 1, 7]),
        (&[], &[852, 1, 4, 101, 2, 0, 1, 7]),
        (&[], &[107, 1, 7, 803, 0, 1, 4, 610, 3, 5]),
        (&[], &[852, 2, 4, 5, 101, 1, 4, 1, 6]),
    ];
    let mut work = vec![OLD; WORK_WORDS];
    for command in Command::ALL {
        let mut answered = 0;
        for (list, row) in cases {
            for room in 0..=row.len() + 4 {
                let (mut out, mut by_number) = (vec![OLD; room], vec![OLD; room]);
                let got = command.call(-1, list, row, &mut work, &mut out);
                answered += usize::from(got.is_ok());
                assert_eq!(sogbayile::run(command, -1, list, row, &mut work, &mut by_number), got);
                assert_eq!(by_number, out);
            }
        }
        assert!(answered > 0, "{command:?} was always refused");
    }
}

#[test]
fn named_forms() {
    let mut out = [OLD; 14];
    // the last of two equal names; what an annotation names is outside its quantifier
    assert_eq!(sogbayile::named(&[852, 3, 4, 5, 4, 101, 1, 4, 1, 5], &mut out), Ok(10));
    assert_eq!(out, [852, 3, 4, 5, 4, 101, 2, 0, 2, 1, OLD, OLD, OLD, OLD]);
    assert_eq!(sogbayile::named(&[852, 1, 4, 862, 1, 4, 1, 1, 4, 9, 1, 4], &mut out), Ok(12));
    assert_eq!(out, [852, 1, 4, 862, 1, 4, 1, 2, 0, 9, 2, 0, OLD, OLD]);
    assert_eq!(sogbayile::named(&[803, 0, 1, 4, 7, 4, 1, 4], &mut out), Ok(8));
    assert_eq!(out[..8], [803, 0, 1, 4, 7, 4, 2, 0]);
    let mut out = [OLD; 4];
    assert_eq!(sogbayile::named(&EXISTS, &mut out), Err(Refusal::NotAForm(4)));
    assert_eq!(sogbayile::named(&[2, 0], &mut out), Err(Refusal::NotAForm(0)));
    assert_eq!(sogbayile::named(&[101, 3, 2, 1], &mut out), Err(Refusal::NotAForm(4)));
    assert_eq!(sogbayile::named(&[2; MAX_WORDS + 1], &mut out), Err(Refusal::TooLong));
    assert_eq!(sogbayile::named(&[101, 1, 4, 1, 5], &mut out), Err(Refusal::OutShort));
    assert_eq!(out, [OLD; 4]);
}

#[test]
fn short_place_lists() {
    let two = [852, 2, 4, 5, 101, 2, 1, 2, 2];
    let (mut work, mut out) = (vec![OLD; WORK_WORDS], [OLD; 9]);
    assert_eq!(sogbayile::fill(&[1, 1, 5], &two, &mut work, &mut out), Ok(8));
    assert_eq!(out, [852, 1, 5, 101, 1, 5, 2, 1, OLD]);
    assert_eq!(sogbayile::fill(&[], &two, &mut work, &mut out), Ok(9));
    assert_eq!(out, two);
    let mut out = [OLD; 9];
    assert_eq!(sogbayile::fill(&[0, 0, 0], &two, &mut work, &mut out), Err(Refusal::BadCount));
    assert_eq!(sogbayile::fill(&[], &two, &mut work, &mut out[..8]), Err(Refusal::OutShort));
    assert_eq!(sogbayile::fill(&[], &[610], &mut work, &mut out), Err(Refusal::NotQuantified));
    assert_eq!(out, [OLD; 9]);
}

#[test]
fn the_parts_of_lift() {
    let closed = [1, 7];
    let mut work = [OLD; 9];
    assert_eq!(sogbayile::lift(&EXISTS, 0, &mut work).as_ptr(), EXISTS.as_ptr());
    assert_eq!(sogbayile::lift(&closed, 5, &mut work).as_ptr(), closed.as_ptr());
    let start = work.as_ptr();
    let part = sogbayile::lift(&EXISTS, 3, &mut work);
    assert_eq!((part.as_ptr(), part), (start, &[852, 1, 9, 101, 2, 0, 2, 5][..]));
    assert_eq!(work[8], OLD);
    assert_eq!(sogbayile::lift(&EXISTS, 3, &mut [OLD; 7]), &[]);
    assert_eq!(sogbayile::lift(&EXISTS, 65534, &mut work), &[]);
    assert_eq!(sogbayile::lift(&EXISTS, u32::MAX, &mut work), &[]);
    assert_eq!(sogbayile::lift(&[852], 0, &mut work), &[]);
    assert_eq!(sogbayile::lift(&[0; MAX_WORDS + 1], 0, &mut work), &[]);
}

#[test]
fn the_dangling_set() {
    let mut out = vec![OLD; MAX_WORDS];
    assert_eq!(sogbayile::dangling(&EXISTS, &mut out), Ok(1));
    assert_eq!(out[..2], [1, OLD]);
    assert_eq!(sogbayile::dangling(&[101, 2, 65535, 2, 4], &mut out), Ok(2));
    assert_eq!(out[..3], [4, 65535, OLD]);
    assert_eq!(sogbayile::dangling(&EXISTS, &mut []), Err(Refusal::OutShort));
}

#[test]
fn checks() {
    assert_eq!(sogbayile::check_expression(&[1, 7]), Ok(()));
    assert_eq!(sogbayile::check_predicate(&[1, 7]), Err(Refusal::NotAForm(0)));
    assert_eq!(sogbayile::check_expression(&EXISTS), Err(Refusal::NotAForm(0)));
    assert_eq!(sogbayile::check_predicate(&EXISTS), Ok(()));
    assert_eq!(sogbayile::check(&EXISTS), Ok(()));
    assert_eq!(sogbayile::check_names(&[4, 5]), Ok(()));
    assert_eq!(sogbayile::check_names(&[4, 65536]), Err(Refusal::BadNames));
    assert_eq!(sogbayile::check_pairs(&[4, 1, 7]), Ok(()));
    assert_eq!(sogbayile::check_pairs(&[4]), Err(Refusal::NotAForm(1)));
    assert_eq!(sogbayile::check_places(&[0, 1, 1, 7], 2), Ok(()));
    assert_eq!(sogbayile::check_places(&[0, 1, 1, 7], 3), Ok(()));
    assert_eq!(sogbayile::check_places(&[], 32), Ok(()));
    assert_eq!(sogbayile::check_places(&[0, 1, 1, 7], 1), Err(Refusal::BadCount));
    assert_eq!(sogbayile::check_places(&[], 33), Err(Refusal::BadCount));
    assert_eq!(sogbayile::check_places(&[0, 0, 2], 1), Err(Refusal::NotAForm(2)));
}

#[test]
fn a_set_of_places() {
    assert_eq!(Places::new(33), Err(Refusal::BadCount));
    let mut places = Places::new(2).unwrap();
    let equality = [101, 2, 0, 1, 7];
    assert_eq!(places.offer(&[610]), Err(Refusal::NoEquality));
    assert_eq!(places.offer(&[101, 2, 2, 1, 7]), Err(Refusal::NoTarget));
    assert_eq!(places.offer(&[101, 2, 1, 2, 1]), Err(Refusal::UsesTarget));
    assert_eq!(places.offer(&[1, 7]), Err(Refusal::NotAForm(0)));
    assert_eq!(places.offer(&[101, 2, 0]), Err(Refusal::NotAForm(3)));
    assert_eq!(places, Places::new(2).unwrap());
    assert_eq!(places.offer(&equality), Ok(()));
    assert_eq!((places.get(0), places.get(1), places.get(2)), (None, Some(3..5), None));
    let before = places.clone();
    assert_eq!(places.offer(&equality), Err(Refusal::PlaceFilled));
    assert_eq!(places, before);
    assert_eq!(places.offer(&[101, 2, 1, 3, 5]), Ok(()));
    assert_eq!(places.get(0), Some(3..5));
}
