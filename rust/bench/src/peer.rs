//! The calls in safe Rust, over any method of joining, of checking a list and of repairing it.

use interface::{calls, slice};
use model::answer::{answer, Refusal};
use model::rows::{capacity_in_range, position_in_range, sort_in_range, Edit};
use model::sizes::*;

use crate::bytes::{common, difference, parts, rows, write_from, write_row, Link};
use crate::calls::Calls;
use crate::masters::{count, find, node_of, read, row_of, BySort, End, Master};

/// The node that an edit is about.
#[derive(Clone, Copy)]
pub struct Edited {
    /// 0 for A, 1 for B.
    pub side: usize,
    pub number: u16,
}

pub trait Method: Default {
    /// Puts the nodes of a master that was just read in the order that the method wants; by default they stay.
    fn arrange(&mut self, _masters: &mut BySort<Master>, _side: usize) {}

    /// The same after an edit, with the numbers of each sort in the order that the method wanted before it; by default they
    /// stay.
    fn rearrange(
        &mut self,
        _masters: &mut BySort<Master>,
        _edited: Edited,
        _known: &[Vec<u16>; 2],
    ) {
    }

    /// Puts the links of the join, in pair order, in the place of those given.
    fn join(&mut self, masters: &BySort<Master>, links: &mut Vec<Link>);

    /// Says yes only to the finished list; where it says no, the join decides.
    fn is_finished(&mut self, masters: &BySort<Master>, list: &[u8]) -> bool;

    /// As the join, after an edit of one node; the list was finished before it. By default joined anew.
    fn repair(
        &mut self,
        masters: &BySort<Master>,
        _list: &[u8],
        _edited: Edited,
        links: &mut Vec<Link>,
    ) {
        self.join(masters, links);
    }
}

#[derive(Default)]
pub struct Peer<M>(Kept<M>);

macro_rules! answer_call {
    ($call:ident [$($buffer:ident: $how:ident),*] ($($number:ident: $type:ty),*)) => {
        fn $call(&mut self, $($buffer: slice!($how),)* $($number: $type),*) -> u32 {
            answer(self.0.$call($($buffer,)* $($number),*))
        }
    };
}

impl<M: Method> Calls for Peer<M> {
    calls!(answer_call);
}

/// What is kept between calls: every buffer.
#[derive(Default)]
struct Kept<M> {
    method: M,
    masters: BySort<Master>,
    links: Vec<Link>,
    /// The numbers of the edited master before the edit, in order, for each sort.
    known: [Vec<u16>; 2],
}

impl<M: Method> Kept<M> {
    fn pair(&mut self, a: &[u8], b: &[u8], list: &mut [u8]) -> Result<u64, Refusal> {
        self.tables(a, b, list, true)?;
        self.method.join(&self.masters, &mut self.links);
        write_from(list, &self.links, 0);
        Ok(self.links.len() as u64)
    }

    fn step(&mut self, a: &[u8], b: &[u8], list: &mut [u8]) -> Result<u64, Refusal> {
        self.tables(a, b, list, true)?;
        match self.list(list) {
            Ok(()) => Ok(0),
            Err(Refusal::ListUnfinished { row }) => {
                write_row(list, row, self.links[row]);
                Ok(1)
            }
            Err(refusal) => Err(refusal),
        }
    }

    fn edit(
        &mut self,
        a: &mut [u8],
        b: &mut [u8],
        list: &mut [u8],
        edit: &[u8],
    ) -> Result<u64, Refusal> {
        self.tables(a, b, list, edit.len() == EDIT_BYTES)?;
        self.list(list)?;
        let edit = Edit::read(edit);
        let row = self.judge(&edit)?;
        let table = if edit.master == MASTER_A { a } else { b };
        change(table, &edit, row);
        let edited = Edited {
            side: edit.master as usize,
            number: edit.number as u16,
        };
        for (known, masters) in self.known.iter_mut().zip(&self.masters) {
            masters[edited.side].numbers(known);
        }
        // The changed table is sound: it was, and the edit is.
        let _ = read(&mut self.masters, edited.side, table);
        let masters = &mut self.masters;
        self.method.rearrange(masters, edited, &self.known);
        self.method
            .repair(&self.masters, list, edited, &mut self.links);
        let kept = common(list, &self.links);
        write_from(list, &self.links, kept);
        Ok(kept as u64)
    }

    fn spare(
        &mut self,
        a: &[u8],
        b: &[u8],
        list: &[u8],
        master: u8,
        number: u16,
    ) -> Result<u64, Refusal> {
        self.tables(a, b, list, true)?;
        self.list(list)?;
        let side = side_of(u64::from(master))?;
        if number == 0 {
            return Err(Refusal::Field);
        }
        let end = find(&self.masters, side, number).ok_or(Refusal::Presence)?;
        let taken = rows(list).filter(|link| {
            let (_, in_a, in_b) = parts(*link);
            [in_a, in_b][side] == number
        });
        let taken: u16 = taken.map(|link| link.1).sum();
        Ok(u64::from(node_of(&self.masters, end).left - taken))
    }

    fn bands(
        &mut self,
        a: &[u8],
        b: &[u8],
        list: &[u8],
        counts: &mut [u8],
    ) -> Result<u64, Refusal> {
        self.tables(a, b, list, counts.len() == COUNTS_BYTES)?;
        self.list(list)?;
        let mut bands = [0u16; BANDS];
        for link in rows(list) {
            bands[(u32::BITS - parts(link).0.leading_zeros()) as usize] += 1;
        }
        for (count, band) in counts.chunks_exact_mut(COUNT_BYTES).zip(bands) {
            count.copy_from_slice(&band.to_le_bytes());
        }
        Ok(0)
    }

    /// The places up to the tables.
    fn tables(&mut self, a: &[u8], b: &[u8], list: &[u8], rest: bool) -> Result<(), Refusal> {
        let tables = [a, b].iter().all(|table| table.len() == TABLE_BYTES);
        if !tables || list.len() != LIST_BYTES || !rest {
            return Err(Refusal::Length);
        }
        let masters = &mut self.masters;
        read(masters, 0, a).map_err(|row| Refusal::TableA { row })?;
        read(masters, 1, b).map_err(|row| Refusal::TableB { row })?;
        for side in [0, 1] {
            self.method.arrange(masters, side);
        }
        Ok(())
    }

    /// The place of the list. Where it is not finished, the links of the join are there afterwards.
    fn list(&mut self, list: &[u8]) -> Result<(), Refusal> {
        if self.method.is_finished(&self.masters, list) {
            return Ok(());
        }
        self.method.join(&self.masters, &mut self.links);
        let Some(row) = difference(list, &self.links) else {
            return Ok(());
        };
        let mut rest = list[row * LINK_BYTES..].iter();
        Err(match rest.all(|byte| *byte == 0) {
            true => Refusal::ListUnfinished { row },
            false => Refusal::ListStray { row },
        })
    }

    /// The edit's own places; gives the row that it changes.
    fn judge(&self, edit: &Edit) -> Result<usize, Refusal> {
        let [used, capacity] = match edit.kind {
            KIND_ARRIVAL => [true, true],
            KIND_DEPARTURE => [false, false],
            KIND_MOVE => [true, false],
            KIND_CAPACITY => [false, true],
            _ => return Err(Refusal::Kind),
        };
        let side = side_of(edit.master)?;
        let positions = [edit.horizontal, edit.vertical];
        let right = match used {
            true => positions.iter().all(|place| position_in_range(*place)),
            false => positions == [0, 0],
        };
        let fits = match capacity {
            true => capacity_in_range(edit.capacity) && sort_in_range(edit.sort),
            false => (edit.capacity, edit.sort) == (0, 0),
        };
        if edit.number == 0 || !right || !fits {
            return Err(Refusal::Field);
        }
        let known = find(&self.masters, side, edit.number as u16);
        let row = |end: End| row_of(&self.masters, end);
        match (edit.kind, known, count(&self.masters, side)) {
            (KIND_ARRIVAL, Some(_), _) => Err(Refusal::Presence),
            (KIND_ARRIVAL, None, TABLE_ROWS) => Err(Refusal::Full),
            (KIND_ARRIVAL, None, nodes) => Ok(nodes),
            (_, end, _) => end.map(row).ok_or(Refusal::Presence),
        }
    }
}

/// 0 for A, 1 for B.
fn side_of(master: u64) -> Result<usize, Refusal> {
    match master {
        MASTER_A | MASTER_B => Ok(master as usize),
        _ => Err(Refusal::Master),
    }
}

/// The edit's effect on the bytes of its table.
fn change(table: &mut [u8], edit: &Edit, row: usize) {
    let (start, end) = (row * NODE_BYTES, (row + 1) * NODE_BYTES);
    match edit.kind {
        KIND_ARRIVAL => table[start..end].copy_from_slice(&edit.node().bytes()),
        KIND_DEPARTURE => {
            table.copy_within(end.., start);
            table[TABLE_BYTES - NODE_BYTES..].fill(0);
        }
        KIND_MOVE => {
            NODE_HORIZONTAL.write_signed(&mut table[start..end], edit.horizontal);
            NODE_VERTICAL.write_signed(&mut table[start..end], edit.vertical);
        }
        _ => {
            NODE_CAPACITY.write(&mut table[start..end], edit.capacity);
            NODE_SORT.write(&mut table[start..end], edit.sort);
        }
    }
}
