//! What the comparison of joins counts: drawings by family, capacities, sorts and size.

use std::collections::BTreeMap;
use std::fmt::{Display, Formatter, Result};

use model::generate::drawing::{Capacities, Drawing, Sorts, CAPACITIES, SORTS};
use model::generate::places::{Family, FAMILIES};
use model::join::join_by_sorting;
use model::rows::{Link, Node};
use model::sizes::{NUMBER_MAX, TABLE_ROWS};

/// Classes of the numbers of nodes that a drawing really has.
const CLASSES: [&str; 7] = [
    "a side empty",
    "to 4",
    "to 16",
    "to 64",
    "few by many",
    "other",
    "512 x 512",
];

fn class(drawing: &Drawing) -> &'static str {
    let (a, b) = (drawing.a.len(), drawing.b.len());
    CLASSES[match (a.min(b), a.max(b)) {
        (0, _) => 0,
        (_, ..=4) => 1,
        (_, ..=16) => 2,
        (_, ..=64) => 3,
        (..=7, 510..) => 4,
        (TABLE_ROWS, _) => 6,
        _ => 5,
    }]
}

/// Whether ties decide: the same places with the numbers turned round, so that
/// the least becomes the greatest, are linked otherwise.
pub fn numbers_decide(drawing: &Drawing, links: &[Link]) -> bool {
    let turn = |number: u64| NUMBER_MAX + 1 - number;
    let turned = |nodes: &[Node]| -> Vec<Node> {
        let turned = nodes.iter().map(|node| Node {
            number: turn(node.number),
            ..*node
        });
        turned.collect()
    };
    let pairs = |links: &[Link], name: &dyn Fn(u64) -> u64| {
        let pairs = links.iter().map(|link| (name(link.a), name(link.b)));
        let mut pairs: Vec<(u64, u64)> = pairs.collect();
        pairs.sort_unstable();
        pairs
    };
    let others = join_by_sorting(&turned(&drawing.a), &turned(&drawing.b));
    pairs(links, &|number| number) != pairs(&others, &turn)
}

type Cell = (Family, Capacities, &'static str);

type SortsCell = (Family, Sorts, &'static str);

#[derive(Default)]
pub struct Tally {
    cells: BTreeMap<Cell, u64>,
    sorts: BTreeMap<SortsCell, u64>,
    /// Drawings with a link, and with links of both sorts.
    linked: u64,
    of_both_sorts: u64,
    links: BTreeMap<Family, usize>,
    decided: BTreeMap<Family, u64>,
}

impl Tally {
    pub fn count(&mut self, drawing: &Drawing, links: &[Link]) {
        let cell = (drawing.family, drawing.capacities, class(drawing));
        *self.cells.entry(cell).or_default() += 1;
        let sorts = (drawing.family, drawing.sorts, class(drawing));
        *self.sorts.entry(sorts).or_default() += 1;
        let sort = |link: &Link| drawing.a.iter().find(|node| node.number == link.a);
        let mut linked = links.iter().filter_map(sort).map(|node| node.sort);
        let first = linked.next();
        self.linked += u64::from(first.is_some());
        self.of_both_sorts += u64::from(linked.any(|sort| Some(sort) != first));
        *self.links.entry(drawing.family).or_default() += links.len();
        let decided = self.decided.entry(drawing.family).or_default();
        *decided += u64::from(numbers_decide(drawing, links));
    }

    pub fn drawings(&self) -> u64 {
        self.cells.values().sum()
    }

    /// Drawings with a link.
    pub fn linked(&self) -> u64 {
        self.linked
    }

    /// Drawings in which ties decide.
    pub fn decided_by_numbers(&self) -> u64 {
        self.decided.values().sum()
    }

    pub fn empty_cells(&self) -> Vec<Cell> {
        let mut cells = Vec::new();
        for family in FAMILIES {
            for capacities in CAPACITIES {
                cells.extend(CLASSES.map(|class| (family, capacities, class)));
            }
        }
        cells.retain(|cell| !self.cells.contains_key(cell));
        cells
    }

    /// Choices of sorts that a family has not met in a class.
    pub fn empty_sorts(&self) -> Vec<SortsCell> {
        let mut cells = Vec::new();
        for family in FAMILIES {
            for sorts in SORTS {
                cells.extend(CLASSES.map(|class| (family, sorts, class)));
            }
        }
        cells.retain(|cell| !self.sorts.contains_key(cell));
        cells
    }

    fn times(&self, family: Family, class: &str) -> u64 {
        let cells = CAPACITIES.map(|capacities| self.cells.get(&(family, capacities, class)));
        cells.into_iter().flatten().sum()
    }
}

/// A line for each family: drawings by size, links, drawings in which ties decide.
impl Display for Tally {
    fn fmt(&self, out: &mut Formatter<'_>) -> Result {
        let (drawings, linked, both) = (self.drawings(), self.linked, self.of_both_sorts);
        writeln!(
            out,
            "joins compared: {drawings}, {linked} with links, {both} with links of both sorts"
        )?;
        for family in FAMILIES {
            write!(out, "{:<11}", format!("{family:?}"))?;
            for class in CLASSES {
                write!(out, "{class} {:<5}", self.times(family, class))?;
            }
            let (links, decided) = (self.links[&family], self.decided[&family]);
            writeln!(out, "links {links:<7}ties decide {decided}")?;
        }
        Ok(())
    }
}
