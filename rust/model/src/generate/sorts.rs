//! Which sorts the nodes of a drawing are of (document 02, P2).

use super::contours::NODE_WITH_HANDLES;
use super::places::{near, Family, Place};
use super::random::Random;
use crate::sizes::{SORT_OFF_CURVE, SORT_ON_CURVE};

#[derive(Clone, Copy, Debug, PartialEq, Eq, PartialOrd, Ord)]
pub enum Sorts {
    OnCurve,
    OffCurve,
    /// Each node of either sort, half and half.
    Mixed,
    /// As outlines have them: each on-curve node is followed by two handles.
    Outline,
    /// One master on-curve, the other off-curve: no pair at all.
    Apart,
    /// One master mixed, the other of one sort.
    OneMixed,
}

pub const SORTS: [Sorts; 6] = [
    Sorts::OnCurve,
    Sorts::OffCurve,
    Sorts::Mixed,
    Sorts::Outline,
    Sorts::Apart,
    Sorts::OneMixed,
];

pub const BOTH_SORTS: [u64; 2] = [SORT_ON_CURVE, SORT_OFF_CURVE];

impl Sorts {
    /// Sorts for so many nodes of A and of B, in row order.
    pub fn sorts(
        self,
        random: &mut Random,
        count_a: usize,
        count_b: usize,
    ) -> (Vec<u64>, Vec<u64>) {
        let (on, off) = (SORT_ON_CURVE, SORT_OFF_CURVE);
        match self {
            Sorts::OnCurve => (vec![on; count_a], vec![on; count_b]),
            Sorts::OffCurve => (vec![off; count_a], vec![off; count_b]),
            Sorts::Mixed => (mixed(random, count_a), mixed(random, count_b)),
            Sorts::Outline => (outline(count_a), outline(count_b)),
            Sorts::Apart => {
                let (sort_a, sort_b) = random.pick(&[(on, off), (off, on)]);
                (vec![sort_a; count_a], vec![sort_b; count_b])
            }
            Sorts::OneMixed => {
                let sort = random.pick(&BOTH_SORTS);
                match random.once_in(2) {
                    true => (mixed(random, count_a), vec![sort; count_b]),
                    false => (vec![sort; count_a], mixed(random, count_b)),
                }
            }
        }
    }

    /// Puts handles close to the node that they follow, where the family is not
    /// about exact places, or has put them so already.
    pub fn place_handles(self, random: &mut Random, family: Family, places: &mut [Place]) {
        let off = match family {
            _ if self != Sorts::Outline => return,
            Family::Clusters | Family::SmallRange => 2,
            Family::Outline | Family::Uniform => 30,
            _ => return,
        };
        for with_handles in places.chunks_mut(NODE_WITH_HANDLES) {
            let node = with_handles[0];
            for handle in &mut with_handles[1..] {
                *handle = near(random, node, off);
            }
        }
    }
}

fn mixed(random: &mut Random, count: usize) -> Vec<u64> {
    (0..count).map(|_| random.pick(&BOTH_SORTS)).collect()
}

fn outline(count: usize) -> Vec<u64> {
    let sort = |row: usize| match row % NODE_WITH_HANDLES {
        0 => SORT_ON_CURVE,
        _ => SORT_OFF_CURVE,
    };
    (0..count).map(sort).collect()
}
