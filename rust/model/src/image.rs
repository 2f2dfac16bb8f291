//! The image of a list under a cut, and the verdict on any bytes.

use crate::code::{code_of, values_of};
use crate::{refuse, Refusal, COUNTS_SIZE, ENTRY_SIZE, LARGEST_STEP, MOST_STEPS, NUMBER_SIZE};

/// How a block keeps its steps.
#[derive(Clone, Copy, Debug, PartialEq, Eq, PartialOrd, Ord)]
pub enum Kind {
    /// Kind 0.
    Codes,
    /// Kind 1.
    Row,
}

/// A block of a cut: how it keeps its steps, and how many there are in it and all earlier ones.
#[derive(Clone, Copy, Debug, PartialEq, Eq)]
pub struct Block {
    /// How it keeps its steps.
    pub kind: Kind,
    /// The number of steps in this and all earlier blocks.
    pub upto: usize,
}

/// The image of a list under a cut.
///
/// ```
/// use model::{image_of, Block, Kind};
/// let image = image_of(&[1, 2, 3, 4, 5], &[Block { kind: Kind::Row, upto: 5 }]);
/// assert_eq!(image, [1, 0, 0, 0, 1, 5, 0, 0, 0, 5, 0, 0, 0, 1, 0, 0, 0, 1, 0, 0, 0, 0x3e]);
/// ```
pub fn image_of(list: &[u32], cut: &[Block]) -> Vec<u8> {
    let (mut entries, mut payload) = (Vec::new(), Vec::new());
    let mut from = 0;
    for block in cut {
        let past = if from == 0 { 0 } else { list[from - 1] + 1 };
        payload.extend(part_of(block.kind, past, &list[from..block.upto]));
        entries.push(match block.kind {
            Kind::Codes => 0,
            Kind::Row => 1,
        });
        entries.extend(list[block.upto - 1].to_le_bytes());
        entries.extend((block.upto as u32).to_le_bytes());
        entries.extend((payload.len() as u32).to_le_bytes());
        from = block.upto;
    }
    let (m, p) = (cut.len() as u32, payload.len() as u32);
    [&m.to_le_bytes()[..], &entries, &p.to_le_bytes(), &payload].concat()
}

/// The payload of a block: `past` is one past "before".
fn part_of(kind: Kind, past: u32, steps: &[u32]) -> Vec<u8> {
    match kind {
        Kind::Codes => {
            let mut past = past;
            let mut part = Vec::new();
            for &step in steps {
                part.extend(code_of(step - past));
                past = step + 1;
            }
            part
        }
        Kind::Row => {
            let span = steps[steps.len() - 1] + 1 - past;
            let mut part = vec![0; span.div_ceil(8) as usize];
            for &step in steps {
                let j = step - past;
                part[(j / 8) as usize] |= 1 << (j % 8);
            }
            part
        }
    }
}

/// An entry as it stands in the bytes.
struct Entry {
    kind: u8,
    last: u32,
    upto: u32,
    end: u32,
}

/// The list that an image stands for, or the first refusal of the table.
pub fn verdict(image: &[u8]) -> Result<Vec<u32>, Refusal> {
    let Some((entries, payload, left_over)) = sections(image) else {
        return refuse(1, 0);
    };
    if left_over {
        return refuse(2, 0);
    }
    judge_entries(&entries, payload.len())?;
    let mut list = Vec::new();
    let (mut past, mut upto, mut start) = (0, 0, 0);
    for (number, entry) in entries.iter().enumerate() {
        let part = &payload[start as usize..entry.end as usize];
        let steps = match entry.kind {
            0 => steps_of_codes(part, past).map_or_else(|| refuse(7, number), Ok)?,
            _ => steps_of_row(part, past, entry.last).map_or_else(|| refuse(10, number), Ok)?,
        };
        if steps.len() != (entry.upto - upto) as usize {
            return refuse(8, number);
        }
        if steps.last() != Some(&u64::from(entry.last)) {
            return refuse(9, number);
        }
        list.extend(steps.into_iter().map(|step| step as u32));
        (past, upto, start) = (entry.last + 1, entry.upto, entry.end);
    }
    Ok(list)
}

/// The entries, the payload, and whether bytes are left over; nothing if bytes are missing.
fn sections(image: &[u8]) -> Option<(Vec<Entry>, &[u8], bool)> {
    let number = |at: usize| Some(u32::from_le_bytes(image.get(at..at + NUMBER_SIZE)?.try_into().ok()?));
    let m = number(0)? as usize;
    let p = number(NUMBER_SIZE + ENTRY_SIZE * m)? as usize;
    let start = COUNTS_SIZE + ENTRY_SIZE * m;
    let payload = image.get(start..start + p)?;
    let entries = (0..m).map(|i| NUMBER_SIZE + ENTRY_SIZE * i).map(|at| {
        Some(Entry { kind: image[at], last: number(at + 1)?, upto: number(at + 5)?, end: number(at + 9)? })
    });
    Some((entries.collect::<Option<_>>()?, payload, image.len() > start + p))
}

/// 3 to 6 for each entry in turn, then the closing 6.
fn judge_entries(entries: &[Entry], p: usize) -> Result<(), Refusal> {
    let (mut past, mut upto, mut end) = (0, 0, 0);
    for (number, entry) in entries.iter().enumerate() {
        if entry.kind > 1 {
            return refuse(3, number);
        }
        if entry.last > LARGEST_STEP || entry.last < past {
            return refuse(4, number);
        }
        if entry.upto <= upto || entry.upto as usize > MOST_STEPS {
            return refuse(5, number);
        }
        if entry.end <= end || entry.end as usize > p {
            return refuse(6, number);
        }
        (past, upto, end) = (entry.last + 1, entry.upto, entry.end);
    }
    if end as usize != p {
        return refuse(6, entries.len());
    }
    Ok(())
}

/// The steps of a block of codes; nothing if one of them is no code. They are added up without a bound: a
/// step is a number, no remainder.
fn steps_of_codes(part: &[u8], past: u32) -> Option<Vec<u64>> {
    let mut past = u64::from(past);
    let values = values_of(part)?;
    Some(
        values
            .into_iter()
            .map(|value| {
                let step = past + u64::from(value);
                past = step + 1;
                step
            })
            .collect(),
    )
}

/// The steps of a row; nothing if it has the wrong length or a 1 past the span.
fn steps_of_row(part: &[u8], past: u32, last: u32) -> Option<Vec<u64>> {
    let span = u64::from(last + 1 - past);
    if part.len() as u64 != span.div_ceil(8) {
        return None;
    }
    let ones = (0..8 * part.len() as u64).filter(|j| part[(j / 8) as usize] >> (j % 8) & 1 == 1);
    let steps: Vec<u64> = ones.map(|j| u64::from(past) + j).collect();
    if steps.iter().any(|&step| step > u64::from(last)) {
        return None;
    }
    Some(steps)
}

#[cfg(test)]
mod tests {
    use super::*;
    use crate::shortest;

    fn refused(image: &[u8]) -> (u32, u32) {
        let refusal = verdict(image).unwrap_err();
        (refusal.number, refusal.place)
    }

    #[test]
    fn counts_of_document_01() {
        assert_eq!(verdict(&[0; 8]), Ok(vec![]));
        assert_eq!(refused(&[0; 7]), (1, 0));
        assert_eq!(refused(&[0; 9]), (2, 0));
    }

    #[test]
    fn single_step_of_document_01() {
        let image = |kind: u8, payload: &[u8]| {
            let p = payload.len() as u8;
            [&[1, 0, 0, 0, kind, 0, 0, 0, 0, 1, 0, 0, 0, p, 0, 0, 0, p, 0, 0, 0], payload].concat()
        };
        assert_eq!(shortest(&[0]), image(0, &[0x00]));
        assert_eq!(verdict(&image(1, &[0x01])), Ok(vec![0]));
        assert_eq!(refused(&image(1, &[0x03])), (10, 0));
        assert_eq!(refused(&image(0, &[0x80, 0x00])), (7, 0));
    }

    #[test]
    fn counts_that_would_wrap_are_refused() {
        assert_eq!(refused(&[0xff; 8]), (1, 0));
        assert_eq!(refused(&[0, 0, 0, 0, 0xff, 0xff, 0xff, 0xff, 0]), (1, 0));
    }
}
