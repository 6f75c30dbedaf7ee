//! Blocks change what a search and the check look at, never what they say.

mod masters;

use bench::blocks::{Blocks, Partner, BLOCK};
use bench::bytes::{link, write_from, Link, Node};
use bench::check::Check;
use bench::masters::{BySort, Master};
use bench::shapes::{Drawing, SHAPES};
use masters::Arranged;
use model::generate::drawing::CAPACITIES;
use model::generate::random::Random;
use model::sizes::{LIST_BYTES, POSITION_MAX, POSITION_MIN};

/// Blocks around the whole field: no distance to them says anything.
fn wide(count: usize) -> Blocks {
    let corner = |place: usize| {
        let place = [POSITION_MIN, POSITION_MAX][place % 2] as i32;
        Node {
            x: place,
            y: place,
            number: 0,
            left: 1,
        }
    };
    let blocks = count.div_ceil(BLOCK);
    let corners: Vec<Node> = (0..blocks * BLOCK).map(corner).collect();
    let mut wide = Blocks::default();
    wide.fill(&corners);
    wide
}

/// Drawings of every timed family, all capacities and its sorts, of some blocks and a part of one.
fn drawings() -> impl Iterator<Item = (u64, Random, Arranged)> {
    let mut kinds = Vec::new();
    for shape in SHAPES {
        for capacities in CAPACITIES {
            kinds.extend(shape.sorts().map(|sorts| (shape, capacities, sorts)));
        }
    }
    (0..).zip(kinds).map(|(seed, (shape, capacities, sorts))| {
        let mut random = Random::new(seed);
        let count = random.size(3 * BLOCK, 5 * BLOCK);
        let drawing = Drawing::of_sorts(&mut random, shape, count, capacities, sorts);
        (seed, random, Arranged::new(&drawing.tables().into()))
    })
}

/// A join that passes over some pairs: each of its rows is right of itself.
fn join_without(masters: &BySort<Master>, passed: impl Fn(u64) -> bool) -> Vec<Link> {
    let mut links = Vec::new();
    for masters in masters {
        let [mut a, mut b] = masters.each_ref().map(|master| master.nodes.clone());
        let mut pairs = Vec::new();
        for (i, in_a) in a.iter().enumerate() {
            let others = b.iter().enumerate();
            pairs.extend(others.map(|(j, in_b)| (link(in_a, in_b, 0).0, i, j)));
        }
        pairs.sort_unstable();
        for (key, i, j) in pairs {
            let amount = a[i].left.min(b[j].left);
            if amount > 0 && !passed(key) {
                a[i].left -= amount;
                b[j].left -= amount;
                links.push((key, amount));
            }
        }
    }
    links.sort_unstable();
    links
}

/// What the check says of the links, with the blocks as they are and with wide ones.
fn says(Arranged { masters, blocks }: &Arranged, links: &[Link]) -> [bool; 2] {
    let mut list = vec![0; LIST_BYTES];
    write_from(&mut list, links, 0);
    let wide = masters.each_ref().map(|masters| {
        let masters = masters.each_ref();
        masters.map(|master| wide(master.nodes.len()))
    });
    [blocks, &wide].map(|blocks| Check::default().is_finished(masters, blocks, &list))
}

#[test]
fn the_check_skips_no_open_pair() {
    let (mut right, mut damaged) = (0, 0);
    for (seed, mut random, arranged) in drawings() {
        let links = join_without(&arranged.masters, |_| false);
        assert_eq!(says(&arranged, &links), [true; 2], "seed {seed}");
        right += 1;
        for _ in 0..20 {
            // The pair that is passed over is open: up to it all is as in the join.
            let (key, _) = random.pick(&links);
            let without = join_without(&arranged.masters, |pair| pair == key);
            assert_eq!(
                says(&arranged, &without),
                [false; 2],
                "seed {seed}, {key:x}"
            );
            damaged += 1;
        }
    }
    println!("joins that the check passes: {right}, with a pair passed over: {damaged}");
}

/// Now and then a pair that is passed over would have got nothing, and the list is right all the same.
#[test]
fn the_check_says_the_same_without_blocks() {
    let mut said = [0, 0];
    for (seed, mut random, arranged) in drawings() {
        for _ in 0..20 {
            let (salt, of) = (random.word() | 1, random.pick(&[10, 1_000, 100_000]));
            let passed = |key: u64| (key.wrapping_mul(salt) >> 40) % of == 0;
            let links = join_without(&arranged.masters, passed);
            let [blocked, plain] = says(&arranged, &links);
            assert_eq!(blocked, plain, "seed {seed}, one in {of}");
            said[usize::from(plain)] += 1;
        }
    }
    println!("lists that the check stops and passes, with and without blocks: {said:?}");
    assert!(said.iter().all(|lists| *lists > 50));
}

#[test]
fn the_search_skips_no_nearest_partner() {
    let mut skipped = 0;
    let by_sort = drawings().flat_map(|(seed, random, Arranged { masters, blocks })| {
        let parts = masters.into_iter().zip(blocks);
        parts.map(move |(masters, blocks)| (seed, random.clone(), masters, blocks))
    });
    for (seed, mut random, masters, blocks) in by_sort {
        let nodes = &masters[1].nodes;
        let open: Vec<bool> = nodes.iter().map(|_| !random.once_in(3)).collect();
        for from in &masters[0].nodes {
            let looked_at = std::cell::Cell::new(0);
            let found = blocks[1].nearest(from, Partner::NONE, |block| {
                looked_at.set(looked_at.get() + 1);
                let block = (0..).zip(nodes).skip(block * BLOCK).take(BLOCK);
                block.filter(|(place, _)| open[*place])
            });
            let all = (0..).zip(nodes).filter(|(place, _)| open[*place]);
            let nearest = all.min_by_key(|(_, node)| (from.distance(node), node.number));
            assert_eq!(
                Some(found.at),
                nearest.map(|(place, _)| place),
                "seed {seed}"
            );
            skipped += blocks[1].bounds.len() - looked_at.get();
        }
    }
    println!("blocks that no search looked at: {skipped}");
    assert!(skipped > 1_000);
}
