//! Single calls on one drawing: for every number that a call can give, a case that should be given it. Places that
//! come later in the order of the checks are often bad too, so that the order itself is tested.

use model::buffers::{is_zero, list_row};
use model::calls;
use model::generate::damage::*;
use model::generate::drawing::{Drawing, Size};
use model::generate::edits::KINDS;
use model::generate::lengths::wrong_lend;
use model::generate::random::Random;
use model::report::POSSIBLE;
use model::sizes::*;

use crate::judge::{judge, Case, Mismatch};
use crate::requests::{request, resize_own_buffer};
use crate::tally::{class, possible, Class, Tally};

/// A drawing of this class.
fn drawing(random: &mut Random, wanted: Class) -> Drawing {
    loop {
        let mut drawing = draw(random, wanted);
        if random.once_in(2) {
            std::mem::swap(&mut drawing.a, &mut drawing.b);
        }
        if class((drawing.a.len(), drawing.b.len())) == wanted {
            return drawing;
        }
    }
}

fn draw(random: &mut Random, wanted: Class) -> Drawing {
    let (size, most) = match wanted {
        Class::Empty => (random.pick(&[Size::Small, Size::Full]), 0),
        Class::To4 => (Size::Tiny, TABLE_ROWS),
        Class::To16 => (Size::Small, TABLE_ROWS),
        Class::To64 => (Size::Medium, TABLE_ROWS),
        Class::FewByMany => (Size::Full, random.size(1, 7)),
        // The model is slow on great drawings: of these one in eight is left as it is.
        Class::Other if random.once_in(8) => (Size::Any, TABLE_ROWS),
        Class::Other => (random.pick(&[Size::Any, Size::Full]), random.size(8, 64)),
        Class::Full => (Size::Full, TABLE_ROWS),
    };
    let mut drawing = Drawing::random(random, size);
    drawing.a.truncate(most);
    drawing
}

/// A drawing with its tables and its finished list.
struct Held {
    drawing: Drawing,
    a: Vec<u8>,
    b: Vec<u8>,
    list: Vec<u8>,
}

impl Held {
    fn new(drawing: Drawing) -> Held {
        let (a, b) = (drawing.table_a(), drawing.table_b());
        let mut list = vec![0; LIST_BYTES];
        calls::pair(&a, &b, &mut list);
        Held {
            drawing,
            a,
            b,
            list,
        }
    }

    /// Whether a master takes no arrival.
    fn is_full(&self) -> bool {
        let (a, b) = (&self.drawing.a, &self.drawing.b);
        a.len() == TABLE_ROWS || b.len() == TABLE_ROWS
    }

    fn has_link(&self) -> bool {
        !is_zero(list_row(&self.list, 0))
    }

    /// The same without one node of a full master, if there is one.
    fn with_room(&self, random: &mut Random) -> Held {
        let mut drawing = self.drawing.clone();
        let mut masters = [&mut drawing.a, &mut drawing.b];
        random.shuffle(&mut masters);
        if let Some(full) = masters.into_iter().find(|nodes| nodes.len() == TABLE_ROWS) {
            full.remove(random.size(0, TABLE_ROWS - 1));
        }
        Held::new(drawing)
    }
}

/// One case for each call and number that can be met, each compared with the model.
pub fn run(random: &mut Random, wanted: Class, tally: &mut Tally) -> Result<(), Box<Mismatch>> {
    let held = Held::new(drawing(random, wanted));
    for (call, numbers) in POSSIBLE {
        for number in numbers {
            if !possible(*number, wanted) {
                continue;
            }
            let arrives = call == "Edit" && *number == 0 && random.once_in(KINDS.len() as u64);
            let other = match number {
                0 if arrives => Some(held.with_room(random)),
                // Masters of unlike sorts have no link, and no list is then unfinished.
                5 if !held.has_link() => Some(drawn(random, wanted, Held::has_link)),
                10 if !held.is_full() => Some(drawn(random, wanted, Held::is_full)),
                _ => None,
            };
            let held = other.as_ref().unwrap_or(&held);
            if let Some(case) = case(random, held, call, *number, arrives) {
                judge(random, &case, tally)?;
            }
        }
    }
    Ok(())
}

/// A drawing of this class that is as it should be.
fn drawn(random: &mut Random, wanted: Class, right: fn(&Held) -> bool) -> Held {
    loop {
        let held = Held::new(drawing(random, wanted));
        if right(&held) {
            return held;
        }
    }
}

/// Whether a place is to be bad: certainly at the wanted number, now and then behind it.
fn is_bad(random: &mut Random, place: u32, number: u32) -> bool {
    place == number || (number != 0 && number < place && random.once_in(3))
}

/// A case of this call for this number; none if the drawing allows none.
fn case(
    random: &mut Random,
    held: &Held,
    call: &'static str,
    number: u32,
    arrives: bool,
) -> Option<Case> {
    let mut case = Case {
        a: held.a.clone(),
        b: held.b.clone(),
        list: held.list.clone(),
        request: request(random, &held.drawing, call, number, arrives)?,
        shared: false,
        nodes: (held.drawing.a.len(), held.drawing.b.len()),
    };
    if is_bad(random, 2, number) {
        damage_somehow(random, &mut case.a);
    }
    if is_bad(random, 3, number) {
        damage_somehow(random, &mut case.b);
    }
    match number {
        5 => {
            damage_list(random, &mut case.list, ListFault::Truncated)?;
        }
        // Step goes on from a leading part.
        0 if call == "Step" && random.once_in(2) => {
            damage_list(random, &mut case.list, ListFault::Truncated);
        }
        _ if is_bad(random, 4, number) => stray(random, &mut case.list),
        _ => {}
    }
    if number == 1 {
        lend_wrongly(random, &mut case);
    }
    Some(case)
}

/// One fault or several.
fn damage_somehow(random: &mut Random, table: &mut [u8]) {
    if random.once_in(8) {
        let bytes = random.bytes(TABLE_BYTES);
        return table.copy_from_slice(&bytes);
    }
    if random.once_in(4) && !damage_table_often(random, table, 3).is_empty() {
        return;
    }
    loop {
        let fault = random.pick(&TABLE_FAULTS);
        if damage_table(random, table, fault).is_some() {
            return;
        }
    }
}

/// Damage after which some byte is not zero from the first row that differs.
fn stray(random: &mut Random, list: &mut [u8]) {
    loop {
        let mut damaged = list.to_vec();
        let fault = random.pick(&LIST_FAULTS);
        match damage_list(random, &mut damaged, fault) {
            Some(difference) if !difference.zero_from_there => {
                return list.copy_from_slice(&damaged);
            }
            _ => {}
        }
    }
}

/// One or more buffers of the call with a wrong length.
fn lend_wrongly(random: &mut Random, case: &mut Case) {
    let any = random.size(1, 15);
    let mut which = random.pick(&[1, 2, 4, 8, any]);
    if which & 8 != 0 && !resize_own_buffer(random, &mut case.request) && which == 8 {
        which = random.size(1, 7);
    }
    let buffers = [
        (&mut case.a, TABLE_BYTES),
        (&mut case.b, TABLE_BYTES),
        (&mut case.list, LIST_BYTES),
    ];
    for (bit, (buffer, stated)) in buffers.into_iter().enumerate() {
        if which & (1 << bit) != 0 {
            *buffer = wrong_lend(random, stated).of(buffer);
        }
    }
}

/// Both tables lent as the same bytes, to the calls that read them only.
pub fn run_shared(random: &mut Random, tally: &mut Tally) -> Result<(), Box<Mismatch>> {
    let mut drawing = Drawing::random(random, Size::Small);
    drawing.b = drawing.a.clone();
    let held = Held::new(drawing);
    for (call, numbers) in POSSIBLE {
        for number in numbers {
            if call == "Edit" || [1, 3].contains(number) {
                continue;
            }
            if let Some(case) = case(random, &held, call, *number, false) {
                let b = case.a.clone();
                let shared = Case {
                    b,
                    shared: true,
                    ..case
                };
                judge(random, &shared, tally)?;
            }
        }
    }
    Ok(())
}
