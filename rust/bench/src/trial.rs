//! A drawing and an edit of it, timed and as text.

use std::fmt::{Display, Formatter};

use model::engine::{Buffers, Request};
use model::rows::{Edit, Node};
use model::sizes::*;

use crate::calls::Caller;
use crate::cases::Case;
use crate::clock::now;
use crate::shapes::Drawing;

#[derive(Clone, Debug, PartialEq)]
pub struct Trial {
    pub drawing: Drawing,
    pub edit: Edit,
}

impl Trial {
    /// What is lent, with the finished list by this caller.
    pub fn case(&self, caller: &mut dyn Caller) -> Case {
        let (a, b) = self.drawing.tables();
        let (list, counts) = (vec![0; LIST_BYTES], vec![0; COUNTS_BYTES]);
        let mut lent = Buffers { a, b, list, counts };
        caller.run(&Request::Pair, &mut lent);
        let edit = self.edit.bytes().to_vec();
        Case {
            request: Request::Edit { edit },
            lent,
        }
    }
}

/// Microseconds of an edit, of a check of the drawing before it (Bands) and of a join of the drawing after it (Pair): each
/// the least of some runs.
#[derive(Clone, Copy, Debug)]
pub struct Times {
    pub edit: f64,
    pub check: f64,
    pub join: f64,
}

impl Times {
    pub fn of(case: &Case, caller: &mut dyn Caller, runs: usize) -> Times {
        let counts = Vec::new();
        let mut after = case.lent.clone();
        caller.run(&case.request, &mut after);
        Times {
            edit: least(caller, &case.request, &case.lent, runs),
            check: least(caller, &Request::Bands { counts }, &case.lent, runs),
            join: least(caller, &Request::Pair, &after, runs),
        }
    }

    /// The edit by what it may take: a check and one and a half joins.
    pub fn by_allowed(&self) -> f64 {
        self.edit / (self.check + 1.5 * self.join)
    }
}

/// Microseconds of a call, the least of some runs.
pub fn least(caller: &mut dyn Caller, request: &Request, lent: &Buffers, runs: usize) -> f64 {
    let run = |_| {
        let mut lent = lent.clone();
        let start = now();
        caller.run(request, &mut lent);
        now() - start
    };
    (0..runs).map(run).fold(f64::INFINITY, f64::min)
}

/// A line for the edit, then one for each node: its master, number, horizontal and vertical position, capacity, sort.
impl Display for Trial {
    fn fmt(&self, text: &mut Formatter) -> std::fmt::Result {
        let edit = &self.edit;
        writeln!(
            text,
            "edit {} {} {} {} {} {} {}",
            edit.kind,
            edit.master,
            edit.number,
            edit.horizontal,
            edit.vertical,
            edit.capacity,
            edit.sort
        )?;
        for (name, nodes) in [("a", &self.drawing.a), ("b", &self.drawing.b)] {
            for node in nodes {
                let (across, up) = (node.horizontal, node.vertical);
                writeln!(
                    text,
                    "{name} {} {across} {up} {} {}",
                    node.number, node.capacity, node.sort
                )?;
            }
        }
        Ok(())
    }
}

impl Trial {
    /// The trial of such a text; lines that begin with `#` say nothing, and a line without a sort is on-curve.
    pub fn read(text: &str) -> Result<Trial, String> {
        let mut drawing = Drawing {
            a: Vec::new(),
            b: Vec::new(),
        };
        let mut edit = Err("no edit".to_string());
        for line in text.lines().filter(|line| !line.starts_with('#')) {
            let wrong = || format!("not a line of a trial: {line}");
            let mut words = line.split_whitespace();
            let name = words.next().ok_or_else(wrong)?;
            let fields: Result<Vec<i64>, _> = words.map(str::parse).collect();
            match (name, fields.map_err(|_| wrong())?.as_slice()) {
                ("a" | "b", &[number, across, up, capacity, ref sort @ ..]) if sort.len() < 2 => {
                    let node = Node::new(number as u64, across, up, capacity as u64);
                    let node = node.with_sort(sort_of(sort));
                    match name {
                        "a" => drawing.a.push(node),
                        _ => drawing.b.push(node),
                    }
                }
                (
                    "edit",
                    &[kind, master, number, horizontal, vertical, capacity, ref sort @ ..],
                ) if sort.len() < 2 => {
                    edit = Ok(Edit {
                        kind: kind as u64,
                        master: master as u64,
                        number: number as u64,
                        horizontal,
                        vertical,
                        capacity: capacity as u64,
                        sort: sort_of(sort),
                    });
                }
                _ => return Err(wrong()),
            }
        }
        let edit = edit?;
        Ok(Trial { drawing, edit })
    }
}

fn sort_of(field: &[i64]) -> u64 {
    field.first().map_or(SORT_ON_CURVE, |sort| *sort as u64)
}
