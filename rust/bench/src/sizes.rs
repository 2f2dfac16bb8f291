//! What a list costs in bytes, by the image and by other ways to store it.

use limits::{COUNTS_SIZE, ENTRY_SIZE};

/// Bytes of one list.
pub struct Sizes {
    /// The image that the library writes.
    pub image: usize,
    /// CRoaring's portable form after run optimisation; none without the feature.
    pub croaring: Option<usize>,
    /// An image with one block of codes.
    pub codes: usize,
    /// An image with one row.
    pub row: usize,
    /// An image that is cut every 128 steps, each block by its cheaper kind.
    pub blocks_of_128: usize,
}

fn codes(list: &[u32], past: u32) -> usize {
    let mut past = past;
    let mut bytes = 0;
    for &step in list {
        bytes += match step - past {
            0..=127 => 1,
            128..=16_383 => 2,
            16_384..=2_097_151 => 3,
            _ => 4,
        };
        past = step + 1;
    }
    bytes
}

fn row(list: &[u32], past: u32) -> usize {
    list.last().map_or(0, |last| (last + 1 - past).div_ceil(8) as usize)
}

impl Sizes {
    /// The sizes of a list that keeps the rules.
    pub fn of(list: &[u32]) -> Sizes {
        let mut past = 0;
        let mut blocks_of_128 = COUNTS_SIZE;
        for block in list.chunks(128) {
            blocks_of_128 += ENTRY_SIZE + codes(block, past).min(row(block, past));
            past = block[block.len() - 1] + 1;
        }
        #[cfg(feature = "croaring")]
        let croaring = Some(crate::roaring::Bitmap::of(list).bytes().len());
        #[cfg(not(feature = "croaring"))]
        let croaring = None;
        Sizes {
            image: huttaralu::write(list).expect("the sets keep the rules").bytes().len(),
            croaring,
            codes: COUNTS_SIZE + ENTRY_SIZE + codes(list, 0),
            row: COUNTS_SIZE + ENTRY_SIZE + row(list, 0),
            blocks_of_128,
        }
    }
}
