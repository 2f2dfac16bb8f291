//! Document 01's examples, and what is written against every cut of short lists.

use native::{check, clock_of, first_at, rank, read, start, Clock, Counted, Cursor, Found, Moved, Refusal};
use native::{ENTRY_SIZE, LARGEST_STEP, MOST_STEPS, NUMBER_SIZE, STEPS_IN_A_YEAR, WORK_SHARE};
use tides::Dice;

fn refusal(number: u32, place: u32) -> Refusal {
    Refusal { number, side: 0, place }
}

fn image(list: &[u32]) -> Vec<u8> {
    let mut work = vec![7; WORK_SHARE * (list.len() + 1) + 3];
    let mut out = vec![0xAA; 8 + 17 * list.len() + 5];
    let written = native::write(list, &mut work, &mut out).unwrap();
    assert_eq!(written.steps as usize, list.len());
    assert!(work[..WORK_SHARE * (list.len() + 1)].iter().all(|&number| number == 0));
    assert!(work[WORK_SHARE * (list.len() + 1)..].iter().all(|&number| number == 7));
    let rest = out.split_off(written.bytes as usize);
    assert!(rest.iter().all(|&byte| byte == 0xAA));
    out
}

fn built(blocks: &[(u8, u32, u32, u32)], payload: &[u8]) -> Vec<u8> {
    let mut bytes = (blocks.len() as u32).to_le_bytes().to_vec();
    for &(kind, last, upto, end) in blocks {
        bytes.push(kind);
        for number in [last, upto, end] {
            bytes.extend(number.to_le_bytes());
        }
    }
    bytes.extend((payload.len() as u32).to_le_bytes());
    bytes.extend(payload);
    bytes
}

fn steps(image: &[u8]) -> Vec<u32> {
    let mut steps = vec![9; check(image).unwrap() as usize + 2];
    let count = read(image, &mut steps).unwrap() as usize;
    assert_eq!(steps.split_off(count), [9, 9]);
    steps
}

type Operation = fn(&[u8], &[u8], &mut [u32], &mut [u32], &mut [u8]) -> Result<Counted, Refusal>;

fn pair(operation: Operation, first: &[u8], second: &[u8]) -> Vec<u8> {
    let most = (check(first).unwrap() + check(second).unwrap()) as usize;
    let mut out = vec![0; 8 + 17 * most];
    let (mut exact, mut wide) = (vec![5; most + 9], vec![5; most + 9]);
    let mut work = vec![3; WORK_SHARE * (most + 1)];
    let written = operation(first, second, &mut wide, &mut work, &mut out).unwrap();
    let count = written.steps as usize;
    assert!(wide[count..].iter().all(|&place| place == 5));
    // Buffers that are only as long as they must be take the way that counts first.
    let mut again = vec![0; written.bytes as usize];
    let same =
        operation(first, second, &mut exact[..count], &mut work[..WORK_SHARE * (count + 1)], &mut again)
            .unwrap();
    out.truncate(written.bytes as usize);
    assert_eq!((same, &again), (written, &out));
    assert_eq!(exact[..count], wide[..count]);
    out
}

#[test]
fn examples_of_document_01() {
    assert_eq!(image(&[]), [0; 8]);
    assert_eq!(check(&[0; 7]), Err(refusal(1, 0)));
    assert_eq!(check(&[0; 9]), Err(refusal(2, 0)));
    assert_eq!(image(&[0]), built(&[(0, 0, 1, 1)], &[0]));
    let as_row = built(&[(1, 0, 1, 1)], &[1]);
    assert_eq!(steps(&as_row), [0]);
    assert_eq!(pair(native::both, &as_row, &as_row), image(&[0]));
    assert_eq!(check(&built(&[(1, 0, 1, 1)], &[3])), Err(refusal(10, 0)));
    assert_eq!(check(&built(&[(0, 0, 1, 2)], &[0x80, 0])), Err(refusal(7, 0)));
    assert_eq!(image(&[0, 7]), built(&[(1, 7, 2, 1)], &[0x81]));
    assert_eq!(image(&[0, 8]), built(&[(0, 8, 2, 2)], &[0, 7]));
    assert_eq!(image(&[1, 2, 3, 4, 5]), built(&[(1, 5, 5, 1)], &[0x3E]));
    let without = pair(native::without, &image(&[1, 2, 3, 4, 5]), &image(&[2]));
    assert_eq!(without, built(&[(1, 5, 4, 1)], &[0x3A]));
    let codes = built(&[(0, 533, 5, 5)], &[0x7F, 0x7E, 0x3F, 0x59, 0x7C]);
    assert_eq!(image(&[127, 254, 318, 408, 533]), codes);
    let gaps = image(&[128, 128 + 16_385, 128 + 16_385 + 65_791]);
    assert_eq!(gaps[21..], [0x81, 0x00, 0x81, 0x80, 0x00, 0x84, 0x81, 0x7E]);
    assert_eq!(steps(&image(&[LARGEST_STEP])), [LARGEST_STEP]);
}

#[test]
fn one_block_or_two() {
    let list: Vec<u32> = (0..15).chain([100_000]).collect();
    assert_eq!(image(&list).len(), 39);
    assert_eq!(image(&list)[0], 1);
    let list: Vec<u32> = (0..16).chain([100_000]).collect();
    let two = built(&[(1, 15, 16, 2), (0, 100_000, 17, 5)], &[0xFF, 0xFF, 0x86, 0x8D, 0x10]);
    assert_eq!(image(&list), two);
}

#[test]
fn refusals_of_writing() {
    let write = |list: &[u32], work: usize, out: usize| {
        native::write(list, &mut vec![1; work], &mut vec![1; out]).map(|_| ())
    };
    assert_eq!(write(&[5, 5], 0, 0), Err(refusal(11, 1)));
    assert_eq!(write(&[5, LARGEST_STEP + 1, 4], 0, 0), Err(refusal(12, 1)));
    assert_eq!(write(&[5, 4, LARGEST_STEP + 1], 0, 0), Err(refusal(12, 2)));
    assert_eq!(write(&vec![0; MOST_STEPS + 1], 0, 0), Err(refusal(13, 0)));
    assert_eq!(write(&[5, 6], 47, 0), Err(refusal(14, 48)));
    assert_eq!(write(&[5, 6], 48, 21), Err(refusal(15, 22)));
    assert_eq!(write(&[], 15, 0), Err(refusal(14, 16)));
    assert_eq!(write(&[], 16, 7), Err(refusal(15, 8)));
    let (mut work, mut out) = ([1; 50], [1; 21]);
    assert!(native::write(&[5, 6], &mut work, &mut out).is_err());
    assert_eq!((&work[..48], &work[48..], out), (&[0; 48][..], &[1, 1][..], [1; 21]));
}

#[test]
fn questions() {
    let list: Vec<u32> = (0..16).chain([100_000]).collect();
    let image = image(&list);
    assert_eq!(rank(&image, 16), Ok(100_000));
    assert_eq!(rank(&image, 17), Err(refusal(17, 17)));
    assert_eq!(first_at(&image, 16), Ok(Some(Found { step: 100_000, rank: 16 })));
    assert_eq!(first_at(&image, 100_001), Ok(None));
    let end = Cursor { rank: 17 };
    assert_eq!(end.next(&image), Ok(Moved { step: None, cursor: end }));
    assert_eq!(Cursor { rank: 18 }.next(&image), Err(refusal(19, 0)));
    assert_eq!(start(&image), Ok(Cursor { rank: 0 }));
    assert_eq!(Cursor { rank: 9 }.skip_to(&image, 3), Ok(Cursor { rank: 9 }));
    assert_eq!(Cursor { rank: 9 }.skip_to(&image, 16), Ok(Cursor { rank: 16 }));
    assert_eq!(Cursor { rank: 9 }.skip_to(&image, u32::MAX), Ok(end));
}

#[test]
fn clock() {
    assert_eq!(clock_of(0), Ok(Clock { day: 1, hour: 0, minute: 0 }));
    assert_eq!(clock_of(STEPS_IN_A_YEAR - 1), Ok(Clock { day: 365, hour: 23, minute: 54 }));
    assert_eq!(clock_of(STEPS_IN_A_YEAR), Err(refusal(18, 0)));
}

/// Bytes of the blocks of a cut, and the cut as the tie rule compares it: longer blocks, then codes, first.
type Cut = (u64, Vec<(std::cmp::Reverse<usize>, bool)>);

/// The best cut by trying every first block and the best of the rest.
fn best(list: &[u32]) -> Cut {
    let mut best: Vec<Option<Cut>> = vec![None; list.len() + 1];
    best[list.len()] = Some((0, vec![]));
    let past = |i: usize| if i == 0 { 0 } else { list[i - 1] + 1 };
    for i in (0..list.len()).rev() {
        let mut codes = 0;
        for j in i + 1..=list.len() {
            let gap = list[j - 1] - past(j - 1);
            codes += match gap {
                0..=127 => 1,
                128..=16_383 => 2,
                16_384..=2_097_151 => 3,
                _ => 4,
            };
            let rest = best[j].clone().unwrap();
            for (size, is_row) in [(codes, false), (u64::from((past(j) - past(i)).div_ceil(8)), true)] {
                let mut blocks = vec![(std::cmp::Reverse(j - i), is_row)];
                blocks.extend(&rest.1);
                let cut = (ENTRY_SIZE as u64 + size + rest.0, blocks);
                if best[i].as_ref().is_none_or(|least| cut < *least) {
                    best[i] = Some(cut);
                }
            }
        }
    }
    best[0].clone().unwrap()
}

fn cut_of(image: &[u8]) -> Cut {
    let mut before = 0;
    let blocks = image[NUMBER_SIZE..].chunks(ENTRY_SIZE).take(image[0] as usize + 256 * image[1] as usize);
    let cut = blocks
        .map(|entry| {
            let upto = u32::from_le_bytes(entry[5..9].try_into().unwrap()) as usize;
            let steps = upto - before;
            before = upto;
            (std::cmp::Reverse(steps), entry[0] == 1)
        })
        .collect();
    (image.len() as u64 - 8, cut)
}

fn mixed(dice: &mut Dice, count: usize) -> Vec<u32> {
    let widest = [2, 3, 9, 40, 300, 40_000, 3_000_000];
    let mut list = vec![];
    let mut step = 0;
    let (mut wide, mut left) = (2, 0);
    while list.len() < count {
        if left == 0 {
            wide = widest[dice.below(widest.len() as u32) as usize];
            left = 1 + dice.below(40);
        }
        step += dice.below(wide);
        if step > LARGEST_STEP {
            break;
        }
        list.push(step);
        step += 1;
        left -= 1;
    }
    list
}

#[test]
fn written_is_the_best_of_all_cuts() {
    let mut dice = Dice::new(11);
    for round in 0..3000 {
        let count = dice.below(if round % 10 == 0 { 160 } else { 30 }) as usize;
        let list = mixed(&mut dice, count);
        let image = image(&list);
        assert_eq!(cut_of(&image), best(&list), "{list:?}");
        assert_eq!(steps(&image), list);
    }
}

#[test]
fn answers_are_the_plain_lists() {
    let mut dice = Dice::new(12);
    for _ in 0..300 {
        let lists = [0; 2].map(|_| {
            let count = dice.below(3000) as usize;
            mixed(&mut dice, count)
        });
        let [first, second] = &lists;
        let images = [image(first), image(second)];
        assert_eq!(steps(&images[0]), *first);
        for _ in 0..20 {
            let bound = dice.below(first.last().map_or(10, |last| last + 10));
            let at = first.partition_point(|&step| step < bound);
            let found = first.get(at).map(|&step| Found { step, rank: at as u32 });
            assert_eq!(first_at(&images[0], bound), Ok(found));
            let index = dice.below(first.len() as u32 + 1);
            let step = first.get(index as usize).copied();
            assert_eq!(rank(&images[0], index).ok(), step);
            let cursor = Cursor { rank: index + u32::from(step.is_some()) };
            assert_eq!(Cursor { rank: index }.next(&images[0]), Ok(Moved { step, cursor }));
        }
        let within = |list: &[u32], step: &u32| list.binary_search(step).is_ok();
        let both: Vec<u32> = first.iter().filter(|step| within(second, step)).copied().collect();
        let without: Vec<u32> = first.iter().filter(|step| !within(second, step)).copied().collect();
        let mut either = [&without[..], second].concat();
        either.sort_unstable();
        assert_eq!(pair(native::both, &images[0], &images[1]), image(&both));
        assert_eq!(pair(native::either, &images[0], &images[1]), image(&either));
        assert_eq!(pair(native::without, &images[0], &images[1]), image(&without));
    }
}

#[test]
fn a_year_goes_round() {
    for place in tides::PLACES {
        let year = place.year(5);
        assert_eq!(steps(&image(&year)), year);
    }
    let list = tides::random(1, 0.3, MOST_STEPS);
    assert_eq!(steps(&image(&list)), list);
}
