//! Images: the shortest, those of a cut at random, and damaged ones.

use model::{
    image_of, shortest, Block, Kind, COUNTS_SIZE, ENTRY_SIZE, LARGEST_STEP, MOST_STEPS, NUMBER_SIZE,
};
use proptest::collection::vec;
use proptest::prelude::*;
use proptest::sample::Index;

use crate::lists;

/// Where in an entry its fields stand.
const LAST: usize = 1;
const UPTO: usize = 5;
const END: usize = 9;

/// Rows of a wider span are not tried: they are long, and show nothing that a shorter one does not.
const WIDEST_ROW: u32 = 5000;

/// How a list is cut into blocks.
#[derive(Clone, Debug)]
enum Cut {
    /// As the shortest image has it.
    Shortest,
    /// Into blocks of so many steps, in rows where the flag says so. They are taken in turn, again and again.
    Blocks(Vec<(usize, bool)>),
}

fn cut() -> impl Strategy<Value = Cut> {
    prop_oneof![
        1 => Just(Cut::Shortest),
        3 => vec((1..=40usize, any::<bool>()), 1..=5).prop_map(Cut::Blocks),
        1 => vec((1..=3usize, any::<bool>()), 1..=4).prop_map(Cut::Blocks),
    ]
}

fn cut_image(list: &[u32], cut: &Cut) -> Vec<u8> {
    let Cut::Blocks(sizes) = cut else {
        return shortest(list);
    };
    let mut blocks = Vec::new();
    let mut from = 0;
    for &(size, row) in sizes.iter().cycle() {
        if from == list.len() {
            break;
        }
        let upto = (from + size).min(list.len());
        let past = if from == 0 { 0 } else { list[from - 1] + 1 };
        let kind = if row && list[upto - 1] - past < WIDEST_ROW { Kind::Row } else { Kind::Codes };
        blocks.push(Block { kind, upto });
        from = upto;
    }
    image_of(list, &blocks)
}

/// What befalls an image.
#[derive(Clone, Debug)]
enum Damage {
    /// A bit turns.
    Flip(Index, u8),
    /// A byte becomes another.
    Set(Index, u8),
    /// The end is lost.
    Truncate(Index),
    /// Bytes follow.
    Append(Vec<u8>),
    /// A byte is lost, or one comes in between.
    Remove(Index),
    Insert(Index, u8),
    /// A field is another number: the first count, the second, or one of an entry.
    Blocks(Edit),
    Bytes(Edit),
    Kind(Index, u8),
    Last(Index, Edit),
    Upto(Index, Edit),
    End(Index, Edit),
    /// The same, and that of all later entries moves along, so that only the block itself can tell.
    AllUpto(Index, i8),
    /// A block's part of the payload ends with one byte more or one less, and all that counts bytes moves
    /// along.
    Widen(Index, u8),
    Narrow(Index),
    /// A byte of the payload becomes another.
    Payload(Index, u8),
    /// The only block has codes whose sum is right but for a multiple of 2^32.
    WrappedSum,
}

/// What becomes of a number.
#[derive(Clone, Debug)]
enum Edit {
    Add(i8),
    Is(u32),
}

impl Edit {
    fn of(&self, number: u32) -> u32 {
        match *self {
            Edit::Add(by) => number.wrapping_add_signed(i32::from(by)),
            Edit::Is(number) => number,
        }
    }
}

fn edit() -> impl Strategy<Value = Edit> {
    const STEPS: u32 = MOST_STEPS as u32;
    /// As many entries as 32 bits cannot count the bytes of.
    const WRAPPING: u32 = u32::MAX / ENTRY_SIZE as u32 + 1;
    const TELLING: [u32; 10] = [
        0,
        1,
        STEPS,
        STEPS + 1,
        LARGEST_STEP,
        LARGEST_STEP + 1,
        WRAPPING - 1,
        WRAPPING,
        u32::MAX - 7,
        u32::MAX,
    ];
    prop_oneof![
        3 => (-3..=3i8).prop_map(Edit::Add),
        1 => any::<i8>().prop_map(Edit::Add),
        1 => prop::sample::select(&TELLING[..]).prop_map(Edit::Is),
        1 => any::<u32>().prop_map(Edit::Is),
    ]
}

fn damage() -> impl Strategy<Value = Damage> {
    let at = any::<Index>;
    // Bytes at which codes and rows change their meaning.
    let byte = || prop_oneof![2 => any::<u8>(), 1 => prop::sample::select(&[0x00, 0x01, 0x7f, 0x80, 0x81, 0xff][..])];
    prop_oneof![
        1 => (at(), 0..8u8).prop_map(|(at, bit)| Damage::Flip(at, bit)),
        1 => (at(), byte()).prop_map(|(at, byte)| Damage::Set(at, byte)),
        1 => at().prop_map(Damage::Truncate),
        1 => vec(byte(), 1..=4).prop_map(Damage::Append),
        1 => at().prop_map(Damage::Remove),
        1 => (at(), byte()).prop_map(|(at, byte)| Damage::Insert(at, byte)),
        1 => edit().prop_map(Damage::Blocks),
        1 => edit().prop_map(Damage::Bytes),
        1 => (at(), prop_oneof![0..=3u8, any::<u8>()]).prop_map(|(at, kind)| Damage::Kind(at, kind)),
        1 => (at(), edit()).prop_map(|(at, edit)| Damage::Last(at, edit)),
        1 => (at(), edit()).prop_map(|(at, edit)| Damage::Upto(at, edit)),
        1 => (at(), edit()).prop_map(|(at, edit)| Damage::End(at, edit)),
        1 => (at(), -2..=2i8).prop_map(|(at, by)| Damage::AllUpto(at, by)),
        2 => (at(), byte()).prop_map(|(at, byte)| Damage::Widen(at, byte)),
        2 => at().prop_map(Damage::Narrow),
        3 => (at(), byte()).prop_map(|(at, byte)| Damage::Payload(at, byte)),
        1 => Just(Damage::WrappedSum),
    ]
}

/// Where the entries start, if the image still has as many as it says.
fn entries(image: &[u8]) -> Option<Vec<usize>> {
    let m = number(image, 0)? as usize;
    (m > 0 && m <= image.len() / ENTRY_SIZE && image.len() >= COUNTS_SIZE + ENTRY_SIZE * m)
        .then(|| (0..m).map(|i| NUMBER_SIZE + ENTRY_SIZE * i).collect())
}

fn number(image: &[u8], at: usize) -> Option<u32> {
    Some(u32::from_le_bytes(image.get(at..at + NUMBER_SIZE)?.try_into().ok()?))
}

fn change(image: &mut [u8], at: usize, edit: &Edit) {
    if let Some(old) = number(image, at) {
        image[at..at + NUMBER_SIZE].copy_from_slice(&edit.of(old).to_le_bytes());
    }
}

/// Adds to the ends of the entries from one on, and to the count of the payload's bytes.
fn move_ends(image: &mut [u8], entries: &[usize], from: usize, by: i8) {
    for &entry in &entries[from..] {
        change(image, entry + END, &Edit::Add(by));
    }
    change(image, NUMBER_SIZE + ENTRY_SIZE * entries.len(), &Edit::Add(by));
}

/// Where a block's part of the payload ends, in the image.
fn end_of(image: &[u8], entries: &[usize], block: usize) -> Option<usize> {
    let end = number(image, entries[block] + END)? as usize;
    Some(COUNTS_SIZE + ENTRY_SIZE * entries.len() + end).filter(|&end| end <= image.len())
}

/// An image of one block of 17 codes of four bytes, as large as can be, with the remainder of its last step
/// as the stated one.
fn wrapped_sum() -> Vec<u8> {
    const CODES: u32 = 17;
    const LARGEST_VALUE: u32 = (1 << 28) - 1;
    let last = (0..CODES).fold(0u32, |past, _| past.wrapping_add(LARGEST_VALUE + 1)).wrapping_sub(1);
    // 17 times 2^28 is past 2^32 by 2^28. A first code that is smaller by nearly as much leaves 5.
    let first = model::code_of(LARGEST_VALUE - (last - 5));
    let payload = [first, model::code_of(LARGEST_VALUE).repeat(CODES as usize - 1)].concat();
    let p = payload.len() as u32;
    let entry = [&[0][..], &5u32.to_le_bytes(), &CODES.to_le_bytes(), &p.to_le_bytes()].concat();
    [&1u32.to_le_bytes()[..], &entry, &p.to_le_bytes(), &payload].concat()
}

fn befall(image: &mut Vec<u8>, damage: &Damage) {
    if let Damage::Append(bytes) = damage {
        image.extend(bytes);
    }
    if image.is_empty() {
        return;
    }
    let len = image.len();
    match damage {
        Damage::Append(_) => {}
        Damage::Flip(at, bit) => image[at.index(len)] ^= 1 << bit,
        Damage::Set(at, byte) => image[at.index(len)] = *byte,
        Damage::Truncate(to) => image.truncate(to.index(len)),
        Damage::Remove(at) => {
            image.remove(at.index(len));
        }
        Damage::Insert(at, byte) => image.insert(at.index(len), *byte),
        Damage::Blocks(edit) => change(image, 0, edit),
        Damage::WrappedSum => *image = wrapped_sum(),
        _ => {
            if let Some(entries) = entries(image) {
                befall_entry(image, &entries, damage);
            }
        }
    }
}

fn befall_entry(image: &mut Vec<u8>, entries: &[usize], damage: &Damage) {
    let m = entries.len();
    let payload = COUNTS_SIZE + ENTRY_SIZE * m;
    match damage {
        Damage::Bytes(edit) => change(image, NUMBER_SIZE + ENTRY_SIZE * m, edit),
        Damage::Kind(at, kind) => image[entries[at.index(m)]] = *kind,
        Damage::Last(at, edit) => change(image, entries[at.index(m)] + LAST, edit),
        Damage::Upto(at, edit) => change(image, entries[at.index(m)] + UPTO, edit),
        Damage::End(at, edit) => change(image, entries[at.index(m)] + END, edit),
        Damage::AllUpto(at, by) => {
            for &entry in &entries[at.index(m)..] {
                change(image, entry + UPTO, &Edit::Add(*by));
            }
        }
        Damage::Widen(at, byte) => {
            if let Some(end) = end_of(image, entries, at.index(m)) {
                image.insert(end, *byte);
                move_ends(image, entries, at.index(m), 1);
            }
        }
        Damage::Narrow(at) => {
            if let Some(end) = end_of(image, entries, at.index(m)).filter(|&end| end > payload) {
                image.remove(end - 1);
                move_ends(image, entries, at.index(m), -1);
            }
        }
        Damage::Payload(at, byte) => {
            if image.len() > payload {
                let at = payload + at.index(image.len() - payload);
                image[at] = *byte;
            }
        }
        _ => unreachable!("all other damage needs no entry"),
    }
}

/// An image that is accepted, of a list under some cut.
pub fn accepted() -> impl Strategy<Value = Vec<u8>> {
    (lists::list(), cut()).prop_map(|(list, cut)| cut_image(&list, &cut))
}

/// Any bytes: images, damaged images, and a few that never were one.
pub fn any_image() -> impl Strategy<Value = Vec<u8>> {
    let damaged = |most| {
        (accepted(), vec(damage(), 1..=most)).prop_map(|(mut image, damages)| {
            damages.iter().for_each(|damage| befall(&mut image, damage));
            image
        })
    };
    prop_oneof![
        3 => accepted(),
        8 => damaged(1),
        3 => damaged(3),
        1 => vec(any::<u8>(), 0..=40),
        1 => vec(0..=2u8, 0..=60),
    ]
}

/// Two images that are accepted, with lists that have much in common or little.
pub fn two_accepted() -> impl Strategy<Value = (Vec<u8>, Vec<u8>)> {
    (lists::two_lists(), cut(), cut())
        .prop_map(|((first, second), one, other)| (cut_image(&first, &one), cut_image(&second, &other)))
}

/// Two images, mostly accepted; else one of them, or both, damaged.
pub fn two_images() -> impl Strategy<Value = (Vec<u8>, Vec<u8>)> {
    prop_oneof![
        8 => two_accepted(),
        // An image with itself: what is written may not show how it was cut.
        1 => accepted().prop_map(|image| (image.clone(), image)),
        1 => (accepted(), any_image()),
        1 => (any_image(), accepted()),
        1 => (any_image(), any_image()),
    ]
}
