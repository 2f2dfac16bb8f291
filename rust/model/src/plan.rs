//! The shortest image of a list.

use crate::code::code_of;
use crate::image::{image_of, Block, Kind};
use crate::ENTRY_SIZE;

/// The image with the fewest bytes; among equals the one whose first block has more steps, then codes before
/// row, then the same two tests on the second block, and so on.
///
/// ```
/// assert_eq!(model::shortest(&[]), [0; 8]);
/// ```
pub fn shortest(list: &[u32]) -> Vec<u8> {
    image_of(list, &best_cut(list))
}

/// The cut of the shortest image.
///
/// The cost of a block depends on its own steps and the one before them, not on how the others are cut. So
/// the best cut from a rank on is a block followed by the best cut from its end on, and all ends are tried.
pub fn best_cut(list: &[u32]) -> Vec<Block> {
    let n = list.len();
    // One past the step before a rank: what the first code and the first bit of a block there count from.
    let past = |rank: usize| if rank == 0 { 0 } else { list[rank - 1] + 1 };

    // The bytes of the codes of all steps below a rank; a step has the same code in whichever block it is.
    let mut codes_below = vec![0; n + 1];
    for rank in 0..n {
        codes_below[rank + 1] = codes_below[rank] + code_of(list[rank] - past(rank)).len();
    }

    // For each rank, the fewest bytes of entries and payload from there on, and the block that starts there.
    // After the last step nothing is left to pay.
    let mut fewest = vec![usize::MAX; n + 1];
    fewest[n] = 0;
    let mut chosen = vec![Block { kind: Kind::Codes, upto: n }; n];
    for from in (0..n).rev() {
        // The order of the tries is the order among equals, so only a strictly shorter one takes over.
        for upto in (from + 1..=n).rev() {
            let codes = codes_below[upto] - codes_below[from];
            let row = (past(upto) - past(from)).div_ceil(8) as usize;
            for (kind, payload) in [(Kind::Codes, codes), (Kind::Row, row)] {
                let bytes = ENTRY_SIZE + payload + fewest[upto];
                if bytes < fewest[from] {
                    fewest[from] = bytes;
                    chosen[from] = Block { kind, upto };
                }
            }
        }
    }

    let mut cut = Vec::new();
    let mut from = 0;
    while from < n {
        cut.push(chosen[from]);
        from = chosen[from].upto;
    }
    cut
}

#[cfg(test)]
mod tests {
    use super::*;

    fn codes(upto: usize) -> Block {
        Block { kind: Kind::Codes, upto }
    }

    fn row(upto: usize) -> Block {
        Block { kind: Kind::Row, upto }
    }

    /// The steps from 0 to a last one, then 100,000.
    fn run_then_far(last: u32) -> Vec<u32> {
        (0..=last).chain([100_000]).collect()
    }

    #[test]
    fn no_step_has_no_block() {
        assert_eq!(best_cut(&[]), []);
    }

    #[test]
    fn kinds_of_document_01() {
        assert_eq!(best_cut(&[0]), [codes(1)]);
        assert_eq!(best_cut(&[0, 7]), [row(2)]);
        // Two bytes either way.
        assert_eq!(best_cut(&[0, 8]), [codes(2)]);
        assert_eq!(best_cut(&[1, 2, 3, 4, 5]), [row(5)]);
        assert_eq!(best_cut(&[1, 3, 4, 5]), [row(4)]);
        assert_eq!(best_cut(&[127, 254, 318, 408, 533]), [codes(5)]);
    }

    #[test]
    fn payloads_of_document_01() {
        let payload = |list: &[u32]| shortest(list)[crate::COUNTS_SIZE + ENTRY_SIZE..].to_vec();
        assert_eq!(payload(&[0]), [0x00]);
        assert_eq!(payload(&[0, 7]), [0x81]);
        assert_eq!(payload(&[0, 8]), [0x00, 0x07]);
        assert_eq!(payload(&[1, 2, 3, 4, 5]), [0x3e]);
        assert_eq!(payload(&[1, 3, 4, 5]), [0x3a]);
        assert_eq!(payload(&[127, 254, 318, 408, 533]), [0x7f, 0x7e, 0x3f, 0x59, 0x7c]);
    }

    #[test]
    fn one_block_where_unpadded_rows_would_split() {
        let list = run_then_far(14);
        assert_eq!(best_cut(&list), [codes(16)]);
        assert_eq!(shortest(&list).len(), 39);
    }

    #[test]
    fn two_blocks_of_document_01() {
        let list = run_then_far(15);
        assert_eq!(best_cut(&list), [row(16), codes(17)]);
        #[rustfmt::skip]
        let image = [
            0x02, 0x00, 0x00, 0x00,
            0x01, 0x0f, 0x00, 0x00, 0x00, 0x10, 0x00, 0x00, 0x00, 0x02, 0x00, 0x00, 0x00,
            0x00, 0xa0, 0x86, 0x01, 0x00, 0x11, 0x00, 0x00, 0x00, 0x05, 0x00, 0x00, 0x00,
            0x05, 0x00, 0x00, 0x00,
            0xff, 0xff, 0x86, 0x8d, 0x10,
        ];
        assert_eq!(image.len(), 39);
        assert_eq!(shortest(&list), image);
    }
}
