//! Histories: after each call the byte calls and the paper drawing agree on
//! answer, counts, tables and list (document 01, The paper drawing). Between
//! the calls, others are lent damaged copies, which the paper cannot see.

mod damaged;
mod run;

use std::collections::BTreeMap;
use std::panic::resume_unwind;
use std::sync::atomic::{AtomicU64, Ordering};
use std::thread;

use model::generate::drawing::{Size, Sorts, SIZES, SORTS};
use model::generate::places::{Family, FAMILIES};
use model::generate::random::Random;
use model::report::Tally;
use run::Run;

const HISTORIES: u64 = 12_000;
const CALLS: usize = 20;
const FIRST_SEED: u64 = 0x6869_7374_6f72_7900;
const THREADS: usize = 2;

/// What was tried, summed over the histories.
#[derive(Default)]
pub struct Figures {
    tally: Tally,
    damaged_calls: u64,
    edits_checked: u64,
    /// Done edits that changed the sort of a node, and of these such as took a
    /// link away or brought one.
    sorts_changed: u64,
    links_by_sort: u64,
    drawings: BTreeMap<(Size, Family), u64>,
    sorts: BTreeMap<(Sorts, Family), u64>,
}

impl Figures {
    fn add(&mut self, other: &Figures) {
        self.tally.add(&other.tally);
        self.damaged_calls += other.damaged_calls;
        self.edits_checked += other.edits_checked;
        self.sorts_changed += other.sorts_changed;
        self.links_by_sort += other.links_by_sort;
        for (class, times) in &other.drawings {
            *self.drawings.entry(*class).or_default() += times;
        }
        for (class, times) in &other.sorts {
            *self.sorts.entry(*class).or_default() += times;
        }
    }

    fn drawings_of(&self, class: impl Fn(Size, Family) -> bool) -> u64 {
        let of_class = |(size, family): &(Size, Family)| class(*size, *family);
        let chosen = self.drawings.iter().filter(|(key, _)| of_class(key));
        chosen.map(|(_, times)| times).sum()
    }
}

/// Most histories on small drawings, a few on full ones.
fn size_for(random: &mut Random) -> Size {
    match random.below(HISTORIES) {
        0 => Size::Full,
        1..=4 => Size::Any,
        5..=500 => Size::OneFull,
        501..=900 => Size::Medium,
        901..=5_400 => Size::Small,
        _ => Size::Tiny,
    }
}

fn run_history(seed: u64, figures: &mut Figures) {
    let mut random = Random::new(seed);
    let size = size_for(&mut random);
    let mut run = Run::begin(&mut random, seed, size, CALLS);
    let class = (run.history.drawing.size, run.history.drawing.family);
    *figures.drawings.entry(class).or_default() += 1;
    let class = (run.history.drawing.sorts, run.history.drawing.family);
    *figures.sorts.entry(class).or_default() += 1;
    for place in 0..CALLS {
        run.call(place, figures);
        if random.once_in(4) {
            damaged::call(&run, &mut random, place, figures);
        }
    }
}

/// `MODEL_SEED=0x... cargo test --release --offline --test histories` runs one
/// history alone, by the seed that a failure printed.
#[test]
fn byte_calls_and_paper_agree() {
    if let Ok(text) = std::env::var("MODEL_SEED") {
        let digits = text.trim_start_matches("0x");
        let seed = u64::from_str_radix(digits, 16).expect("a seed in hex");
        return run_history(seed, &mut Figures::default());
    }
    let next = AtomicU64::new(0);
    let work = || {
        let mut figures = Figures::default();
        loop {
            let place = next.fetch_add(1, Ordering::Relaxed);
            if place >= HISTORIES {
                return figures;
            }
            run_history(FIRST_SEED + place, &mut figures);
        }
    };
    let mut figures = Figures::default();
    thread::scope(|scope| {
        let threads: Vec<_> = (0..THREADS).map(|_| scope.spawn(work)).collect();
        for thread in threads {
            match thread.join() {
                Ok(part) => figures.add(&part),
                Err(failure) => resume_unwind(failure),
            }
        }
    });

    let tally = &figures.tally;
    println!("histories: {HISTORIES} of {CALLS} calls, from seed {FIRST_SEED:#x}");
    println!("calls: {}, of these done: {}", tally.calls(), tally.done());
    println!("of these lent damaged copies: {}", figures.damaged_calls);
    println!("edits with blocked pairs sought: {}", figures.edits_checked);
    for size in SIZES {
        let times = figures.drawings_of(|of_size, _| of_size == size);
        println!("histories on drawings of size {size:?}: {times}");
        assert!(times > 0);
    }
    for family in FAMILIES {
        let times = figures.drawings_of(|_, of_family| of_family == family);
        println!("histories on drawings of family {family:?}: {times}");
        assert!(times > 0);
    }
    let (sorts_changed, links_by_sort) = (figures.sorts_changed, figures.links_by_sort);
    println!("sorts changed by edits: {sorts_changed}, with the links: {links_by_sort}");
    assert!(sorts_changed > HISTORIES / 4 && links_by_sort > HISTORIES / 10);
    for sorts in SORTS {
        let times = FAMILIES.map(|family| figures.sorts.get(&(sorts, family)).copied());
        println!("histories on drawings with sorts {sorts:?}, by family: {times:?}");
        assert!(times.iter().all(|times| times.is_some_and(|n| n > 20)));
    }
    println!("call by refusal number:\n{tally}");
    assert_eq!(tally.never_met(), []);
    assert_eq!(tally.not_allowed(), []);
    assert!(3 * tally.done() >= tally.calls(), "less than a third done");
}
