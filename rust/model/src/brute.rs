//! Every cut that could be the best, for short lists.

use crate::image::{image_of, Block, Kind};
use crate::{COUNTS_SIZE, ENTRY_SIZE};

/// The fewest bytes of a block: its entry, and one of payload.
const BLOCK: usize = ENTRY_SIZE + 1;

/// The shortest image of a list, and first among equals, by comparing the images of all cuts.
///
/// Only cuts are left out whose blocks are so many that no image of them is as short as that of one block.
/// For n steps there are 2·3ⁿ⁻¹ cuts in all, so this is for lists of a few dozen bytes.
///
/// ```
/// let list = [3, 5, 8, 100, 101];
/// assert_eq!(model::brute::shortest(&list), model::shortest(&list));
/// ```
pub fn shortest(list: &[u32]) -> Vec<u8> {
    let n = list.len();
    let of_one_block =
        cuts(0, n, 1).iter().map(|cut| image_of(list, cut).len()).min().expect("a list has a cut");
    let images =
        cuts(0, n, (of_one_block - COUNTS_SIZE) / BLOCK).into_iter().map(|cut| (image_of(list, &cut), cut));
    let first = |(image, cut): &(Vec<u8>, Vec<Block>), (other_image, other_cut): &(Vec<u8>, Vec<Block>)| {
        image.len().cmp(&other_image.len()).then_with(|| order(cut).cmp(order(other_cut)))
    };
    images.min_by(first).expect("a list has a cut").0
}

/// All cuts of the ranks from one on up to n that have at most so many blocks.
fn cuts(from: usize, n: usize, most: usize) -> Vec<Vec<Block>> {
    if from == n {
        return vec![vec![]];
    }
    if most == 0 {
        return vec![];
    }
    let mut all = Vec::new();
    for upto in from + 1..=n {
        for rest in cuts(upto, n, most - 1) {
            for kind in [Kind::Codes, Kind::Row] {
                all.push([&[Block { kind, upto }], &rest[..]].concat());
            }
        }
    }
    all
}

/// The order among equally short images: more steps first, then codes before row, block by block. Of two
/// cuts, at the first block where they differ the same steps came before, so "more steps" is the larger upto.
fn order(cut: &[Block]) -> impl Iterator<Item = (std::cmp::Reverse<usize>, Kind)> + '_ {
    cut.iter().map(|block| (std::cmp::Reverse(block.upto), block.kind))
}

#[cfg(test)]
mod tests {
    use super::*;
    use crate::plan::best_cut;

    #[test]
    fn number_of_cuts() {
        assert_eq!((1..=5).map(|n| cuts(0, n, n).len()).collect::<Vec<_>>(), [2, 6, 18, 54, 162]);
        assert_eq!((1..=5).map(|n| cuts(0, n, 1).len()).collect::<Vec<_>>(), [2; 5]);
    }

    #[test]
    fn the_plan_finds_what_brute_force_finds() {
        // Two runs, each after a gap. About these lengths and gaps the kinds change places, and one block
        // becomes two.
        const RUNS: [u32; 9] = [1, 2, 7, 8, 9, 14, 15, 16, 17];
        const GAPS: [u32; 6] = [0, 6, 112, 120, 128, 20_000];
        let mut of_two_blocks = 0;
        for run in RUNS {
            for second in RUNS {
                for (first_gap, gap) in GAPS.iter().flat_map(|&gap| [(0, gap), (gap, 120)]) {
                    let start = first_gap + run + gap;
                    let list: Vec<u32> = (first_gap..first_gap + run).chain(start..start + second).collect();
                    assert_eq!(shortest(&list), crate::shortest(&list), "{list:?}");
                    of_two_blocks += usize::from(best_cut(&list).len() == 2);
                }
            }
        }
        assert!(of_two_blocks > 50, "few of the lists have two blocks: {of_two_blocks}");
    }
}
