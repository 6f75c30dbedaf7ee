//! Trials as text, the hard ones, and a short search.

use std::time::Duration;

use bench::calls::Caller;
use bench::changes::{any_edit, changed};
use bench::hard::hard;
use bench::peer::Peer;
use bench::same::Same;
use bench::shapes::{Drawing, SHAPES};
use bench::sorted::Sorted;
use bench::trial::Trial;
use bench::worst::{Aim, Search, TOLD};
use differential::Archive;
use model::answer::number_of;
use model::buffers::{first_faulty_row, links_of};
use model::generate::drawing::Capacities;
use model::generate::random::Random;

#[test]
fn text_is_read_back() {
    for (name, trial) in hard(64) {
        let text = format!("# {name}\n{trial}");
        assert_eq!(Trial::read(&text).as_ref(), Ok(&trial));
    }
    for wrong in ["", "a 1 0 0 1", "edit 1 2", "c 1 0 0 1", "edit 1 0 1 x 0 1"] {
        assert!(Trial::read(wrong).is_err(), "{wrong:?}");
    }
}

/// The engine and both peers agree on them, and hardly a link stays.
#[test]
fn hard_trials_change_most_links() {
    for (name, trial) in [64, 512].into_iter().flat_map(hard) {
        let mut callers: [Box<dyn Caller>; 3] = [
            Box::new(Archive),
            Box::new(Peer::<Same>::default()),
            Box::new(Peer::<Sorted>::default()),
        ];
        let case = trial.case(&mut *callers[2]);
        let mut done = callers.iter_mut().map(|caller| {
            let mut lent = case.lent.clone();
            (caller.run(&case.request, &mut lent), lent)
        });
        let first = done.next();
        assert!(done.all(|other| Some(&other) == first.as_ref()), "{name}");
        let (answer, after) = first.unwrap();
        assert_eq!(number_of(answer), 0, "{name}");
        let before = links_of(&case.lent.list);
        let after = links_of(&after.list);
        let stay = after.iter().filter(|link| before.contains(link)).count();
        assert!(
            stay * 20 <= after.len(),
            "{name}: {stay} of {}",
            after.len()
        );
    }
}

#[test]
fn changes_leave_sound_trials() {
    let random = &mut Random::new(1);
    let peer = &mut Peer::<Same>::default();
    for shape in SHAPES {
        let drawing = Drawing::new(random, shape, 60, Capacities::Few);
        let edit = any_edit(random, &drawing);
        let mut trial = Trial { drawing, edit };
        for _ in 0..200 {
            trial = changed(random, &trial);
            let mut case = trial.case(peer);
            assert_eq!(first_faulty_row(&case.lent.a), None);
            assert_eq!(first_faulty_row(&case.lent.b), None);
            let answer = peer.run(&case.request, &mut case.lent);
            assert_eq!(number_of(answer), 0, "{shape:?} {trial}");
        }
    }
}

#[test]
fn a_search_climbs() {
    for aim in [Aim::Longest, Aim::Dearest] {
        let mut search = Search {
            aim,
            caller: &mut Peer::<Same>::default(),
            random: Random::new(3),
            timed: 0,
        };
        let climbers = search.climb(Duration::from_millis(100));
        assert_eq!(climbers.len(), TOLD);
        assert!(climbers.is_sorted_by(|one, other| one.score >= other.score));
    }
}
