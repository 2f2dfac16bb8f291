//! Lists and results at the limits and one past them, where the model's plan would take days. What is right
//! is known without it.

use huttaralu_tests::lent::Lent;
use huttaralu_tests::library::{Answer, Library, Proved};
use model::{
    code_of, work_for, Operation, COUNTS_SIZE, ENTRY_SIZE, LARGEST_STEP, MOST_STEPS, STEPS_IN_A_YEAR,
};

const N: u32 = MOST_STEPS as u32;
/// How far apart as many steps as there may be can lie.
const APART: u32 = (LARGEST_STEP + 1) / N;

fn refused(number: u32, place: usize) -> Answer {
    Answer { refusal: [number, 0, place as u32], values: [0; 3] }
}

/// One block.
fn image(kind: u8, last: u32, upto: u32, payload: &[u8]) -> Vec<u8> {
    let p = (payload.len() as u32).to_le_bytes();
    let entry = [&[kind][..], &last.to_le_bytes(), &upto.to_le_bytes(), &p].concat();
    [&1u32.to_le_bytes()[..], &entry, &p, payload].concat()
}

/// Writes a list of as many steps as there may be, holds the image against the one that it has to be, and
/// asks it at its ends.
fn write_and_ask(list: &[u32], right: &[u8]) {
    let mut work = Lent::empty(work_for(MOST_STEPS));
    let mut out = Lent::empty(right.len());
    let written = Proved.write(list, work.buffer(), out.buffer());
    assert_eq!(written, Answer::accepted([N, right.len() as u32, 0]));
    assert!(out == Lent::with(right));
    assert!(work == Lent::with(&vec![0; work_for(MOST_STEPS)]));

    let mut steps = Lent::empty(MOST_STEPS);
    assert_eq!(Proved.read(out.content(), steps.buffer()), Answer::accepted([N, 0, 0]));
    assert!(steps == Lent::with(list));

    let last = list[MOST_STEPS - 1];
    assert_eq!(Proved.check(right), Answer::accepted([N, 0, 0]));
    assert_eq!(Proved.rank(right, N - 1), Answer::accepted([last, 0, 0]));
    assert_eq!(Proved.rank(right, N), refused(17, MOST_STEPS));
    assert_eq!(Proved.first_at(right, last), Answer::accepted([1, last, N - 1]));
    assert_eq!(Proved.first_at(right, last + 1), Answer::accepted([0, 0, 0]));
    assert_eq!(Proved.next(N - 1, right), Answer::accepted([1, last, N]));
    assert_eq!(Proved.next(N, right), Answer::accepted([0, 0, N]));
    assert_eq!(Proved.next(N + 1, right), refused(19, 0));
    assert_eq!(Proved.skip(0, right, u32::MAX), Answer::accepted([0, 0, N]));
}

#[test]
fn the_longest_run() {
    // A bit a step, and a second block would cost an entry more.
    let list: Vec<u32> = (0..N).collect();
    write_and_ask(&list, &image(1, N - 1, N, &vec![0xff; MOST_STEPS / 8]));
}

#[test]
fn the_longest_list_that_ends_at_the_largest_step() {
    // A byte a step in codes, and no less in a row: codes come first.
    assert!((8..=128).contains(&APART));
    let list: Vec<u32> = (1..=N).map(|i| APART * i - 1).collect();
    assert_eq!(list.last(), Some(&LARGEST_STEP));
    write_and_ask(&list, &image(0, LARGEST_STEP, N, &vec![APART as u8 - 1; MOST_STEPS]));
}

#[test]
fn one_step_more_is_refused_before_all_else() {
    let mut list: Vec<u32> = (0..=N).collect();
    list[7] = u32::MAX;
    list[8] = 0;
    let (mut work, mut out) = (Lent::<u32>::empty(3), Lent::<u8>::empty(3));
    let kept = (work.clone(), out.clone());
    assert_eq!(Proved.write(&list, work.buffer(), out.buffer()), refused(13, 0));
    assert!((work, out) == kept);
}

#[test]
fn buffers_of_the_longest_list_that_are_short_by_one() {
    let list: Vec<u32> = (0..N).collect();
    let bytes = COUNTS_SIZE + ENTRY_SIZE + MOST_STEPS / 8;
    let mut out = Lent::<u8>::empty(bytes);
    let kept = out.clone();

    let mut work = Lent::<u32>::empty(work_for(MOST_STEPS) - 1);
    let work_kept = work.clone();
    assert_eq!(Proved.write(&list, work.buffer(), out.buffer()), refused(14, work_for(MOST_STEPS)));
    assert!(work == work_kept && out == kept);

    let mut work = Lent::<u32>::empty(work_for(MOST_STEPS));
    let short = &mut out.buffer()[..bytes - 1];
    assert_eq!(Proved.write(&list, work.buffer(), short), refused(15, bytes));
    assert!(work == Lent::with(&vec![0; work_for(MOST_STEPS)]) && out == kept);
}

#[test]
fn the_largest_step_is_written_and_the_next_is_not() {
    let (mut work, mut out) = ([1; 32], [1; 25]);
    let written = Proved.write(&[LARGEST_STEP], &mut work, &mut out);
    assert_eq!(written, Answer::accepted([1, 25, 0]));
    assert_eq!(out.to_vec(), image(0, LARGEST_STEP, 1, &code_of(LARGEST_STEP)));
    assert_eq!(Proved.write(&[5, LARGEST_STEP + 1], &mut work, &mut out), refused(12, 1));
    assert_eq!(Proved.write(&[5, 5], &mut work, &mut out), refused(11, 1));
}

/// Two runs that have so many steps in common, and together one for each number below `together`.
fn runs(together: u32, common: u32) -> (Vec<u8>, Vec<u8>) {
    let half = together / 2;
    let run = |from: u32, to: u32| {
        let list: Vec<u32> = (from..to).collect();
        let mut out = vec![0; 30 + (to as usize).div_ceil(8)];
        let written = Proved.write(&list, &mut vec![0; work_for(list.len())], &mut out);
        out.truncate(written.values[1] as usize);
        out
    };
    (run(0, half + common), run(half, together))
}

#[test]
fn a_result_of_as_many_steps_as_there_may_be() {
    let (first, second) = runs(N, 1000);
    let (mut steps, mut work) = (Lent::empty(MOST_STEPS), Lent::empty(work_for(MOST_STEPS)));
    let right = image(1, N - 1, N, &vec![0xff; MOST_STEPS / 8]);
    let mut out = Lent::empty(right.len());
    let answer = Proved.pair(Operation::Either, &first, &second, steps.buffer(), work.buffer(), out.buffer());
    assert_eq!(answer, Answer::accepted([N, right.len() as u32, 0]));
    assert!(steps == Lent::with(&(0..N).collect::<Vec<u32>>()));
    assert!(work == Lent::with(&vec![0; work_for(MOST_STEPS)]));
    assert!(out == Lent::with(&right));
}

#[test]
fn a_result_of_one_step_more_is_refused_before_any_buffer() {
    let (first, second) = runs(N + 1, 1000);
    let (mut steps, mut work, mut out) = (Lent::<u32>::empty(0), Lent::<u32>::empty(5), Lent::<u8>::empty(5));
    let kept = (steps.clone(), work.clone(), out.clone());
    let answer = Proved.pair(Operation::Either, &first, &second, steps.buffer(), work.buffer(), out.buffer());
    assert_eq!(answer, refused(13, 0));
    assert!((steps, work, out) == kept);

    // The same two have a result that is small enough if less is asked of them.
    let mut steps = [0; 1000];
    let (mut work, mut out) = (vec![0; work_for(1000)], vec![0; 200_000]);
    let answer = Proved.pair(Operation::Both, &first, &second, &mut steps, &mut work, &mut out);
    assert_eq!((answer.number(), answer.values[0]), (0, 1000));
}

#[test]
fn counts_that_would_wrap() {
    let mut bytes = [0xff; 64];
    assert_eq!(Proved.check(&bytes), refused(1, 0));
    // The entries of the first of these have 2^32 bytes or a few more, which in 32 bits are none or a few.
    const WRAPPING: u32 = u32::MAX / ENTRY_SIZE as u32 + 1;
    for m in [WRAPPING, WRAPPING - 1, 1 << 31] {
        bytes[..4].copy_from_slice(&m.to_le_bytes());
        assert_eq!(Proved.check(&bytes), refused(1, 0));
        assert_eq!(Proved.check(&bytes[..8]), refused(1, 0));
    }
    // No block, and a payload that would end before it starts.
    let bytes = [[0; 4], (u32::MAX - 7).to_le_bytes()].concat();
    assert_eq!(Proved.check(&bytes), refused(1, 0));
}

#[test]
fn the_clock_of_every_step() {
    for step in 0..=STEPS_IN_A_YEAR + 10_000 {
        let right = if step < STEPS_IN_A_YEAR {
            Answer::accepted([step / 240 + 1, step % 240 / 10, step % 10 * 6])
        } else {
            refused(18, 0)
        };
        assert_eq!(Proved.clock_of(step), right);
    }
    assert_eq!(Proved.clock_of(u32::MAX), refused(18, 0));
}
