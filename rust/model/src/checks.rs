//! What has to hold of amounts and of lists, as functions (document 01, The
//! join; The paper drawing; document 02, P2).

use crate::buffers::list_row;
use crate::join::{form_pair, of_sort, pair_key, squared_distance};
use crate::rows::{Link, Node};
use crate::sizes::*;

/// The amount of every pair: `amounts[i][j]` is that of `a[i]` and `b[j]`, and 0
/// where these are of unlike sorts and so no pair.
pub type Amounts = Vec<Vec<u64>>;

/// The amounts that the links give, 0 without a link; none if a link names no
/// node or two that are no pair, or a pair has two links.
pub fn amounts_of(a: &[Node], b: &[Node], links: &[Link]) -> Option<Amounts> {
    let mut amounts = vec![vec![0; b.len()]; a.len()];
    for link in links {
        let i = a.iter().position(|node| node.number == link.a)?;
        let j = b.iter().position(|node| node.number == link.b)?;
        if amounts[i][j] != 0 || !form_pair(&a[i], &b[j]) {
            return None;
        }
        amounts[i][j] = link.amount;
    }
    Some(amounts)
}

/// Each node's amounts add up to its capacity at most.
pub fn within_capacities(a: &[Node], b: &[Node], amounts: &Amounts) -> bool {
    let a_within = (0..a.len()).all(|i| {
        let total: u64 = (0..b.len()).map(|j| amounts[i][j]).sum();
        total <= a[i].capacity
    });
    let b_within = (0..b.len()).all(|j| {
        let total: u64 = (0..a.len()).map(|i| amounts[i][j]).sum();
        total <= b[j].capacity
    });
    a_within && b_within
}

/// A pair, and at both nodes, their pairs up to and with this one leave something.
pub fn is_blocked(a: &[Node], b: &[Node], amounts: &Amounts, i: usize, j: usize) -> bool {
    let this = pair_key(&a[i], &b[j]);
    let at_a: u64 = (0..b.len())
        .filter(|q| form_pair(&a[i], &b[*q]) && pair_key(&a[i], &b[*q]) <= this)
        .map(|q| amounts[i][q])
        .sum();
    let at_b: u64 = (0..a.len())
        .filter(|p| form_pair(&a[*p], &b[j]) && pair_key(&a[*p], &b[j]) <= this)
        .map(|p| amounts[p][j])
        .sum();
    form_pair(&a[i], &b[j]) && at_a < a[i].capacity && at_b < b[j].capacity
}

/// Some blocked pair, if there is one.
pub fn blocked_pair(a: &[Node], b: &[Node], amounts: &Amounts) -> Option<(usize, usize)> {
    let pairs = (0..a.len()).flat_map(|i| (0..b.len()).map(move |j| (i, j)));
    pairs
        .into_iter()
        .find(|(i, j)| is_blocked(a, b, amounts, *i, *j))
}

/// The links stand in pair order, each of two known nodes of one sort, with their
/// squared distance and an amount, and are no more than the nodes of each sort
/// allow.
pub fn links_well_formed(a: &[Node], b: &[Node], links: &[Link]) -> bool {
    let find = |nodes: &[Node], number| nodes.iter().copied().find(|n| n.number == number);
    let fields_right = links
        .iter()
        .all(|link| match (find(a, link.a), find(b, link.b)) {
            (Some(in_a), Some(in_b)) => {
                let distance = squared_distance(&in_a, &in_b);
                form_pair(&in_a, &in_b) && link.distance == distance && link.amount > 0
            }
            _ => false,
        });
    let key = |link: &Link| (link.distance, link.a, link.b);
    let in_order = links.windows(2).all(|two| key(&two[0]) < key(&two[1]));
    let most_of = |sort: u64| match (of_sort(a, sort).len(), of_sort(b, sort).len()) {
        (0, _) | (_, 0) => 0,
        (nodes_a, nodes_b) => nodes_a + nodes_b - 1,
    };
    let most: usize = (0..=SORT_MAX).map(most_of).sum();
    fields_right && in_order && links.len() <= most
}

/// All of the above: what is wrong with these links for these nodes, if anything.
pub fn fault_of_links(a: &[Node], b: &[Node], links: &[Link]) -> Option<String> {
    if !links_well_formed(a, b, links) {
        return Some("links not well formed".to_string());
    }
    let Some(amounts) = amounts_of(a, b, links) else {
        return Some("a link of an unknown node, or a pair linked twice".to_string());
    };
    if !within_capacities(a, b, &amounts) {
        return Some("amounts beyond a capacity".to_string());
    }
    blocked_pair(a, b, &amounts)
        .map(|(i, j)| format!("blocked pair A {} B {}", a[i].number, b[j].number))
}

/// What is wrong with the links of the masters lent in the opposite order, if
/// anything. Distances are held row by row, since a comparison as sets misses a
/// wrong order; rows of equal distance are free to change places.
pub fn fault_of_exchange(links: &[Link], opposite: &[Link]) -> Option<String> {
    let (count, count_opposite) = (links.len(), opposite.len());
    if count != count_opposite {
        return Some(format!("{count} links, {count_opposite} in opposite order"));
    }
    let mut rows = links.iter().zip(opposite);
    if let Some(row) = rows.position(|(one, other)| one.distance != other.distance) {
        return Some(format!("unlike distances in row {row}"));
    }
    let mut links = links.to_vec();
    let mut exchanged: Vec<Link> = opposite.iter().map(Link::exchanged).collect();
    let numbers = |link: &Link| (link.a, link.b);
    links.sort_by_key(numbers);
    exchanged.sort_by_key(numbers);
    // Without repeats, sorted lists that agree have each link exactly once.
    if let Some(two) = links.windows(2).find(|w| numbers(&w[0]) == numbers(&w[1])) {
        return Some(format!("two links of one pair, {two:?}"));
    }
    let mut both = links.iter().zip(&exchanged);
    both.find(|(one, other)| one != other)
        .map(|(one, other)| format!("{one:?} where the exchanged have {other:?}"))
}

/// The rows ahead of the first one that names the edited node, in the list
/// before or in the list after the edit, are the same; all where none does.
pub fn rows_ahead_same(before: &[u8], after: &[u8], master: u64, number: u64) -> bool {
    let names = |list: &[u8], row: usize| {
        let field = if master == MASTER_A { LINK_A } else { LINK_B };
        field.read(list_row(list, row)) == number
    };
    let ahead = (0..LIST_ROWS)
        .find(|row| names(before, *row) || names(after, *row))
        .unwrap_or(LIST_ROWS);
    (0..ahead).all(|row| list_row(before, row) == list_row(after, row))
}

/// Every matrix of amounts of pairs within all capacities that has no blocked
/// pair, by trying all of them. For tiny drawings only.
pub fn all_unblocked(a: &[Node], b: &[Node]) -> Vec<Amounts> {
    let mut found = Vec::new();
    let mut amounts = vec![vec![0; b.len()]; a.len()];
    try_all(a, b, &mut amounts, 0, &mut found);
    found
}

/// Tries every amount for the pair at this place and for all pairs after it.
fn try_all(a: &[Node], b: &[Node], amounts: &mut Amounts, place: usize, found: &mut Vec<Amounts>) {
    if place == a.len() * b.len() {
        if within_capacities(a, b, amounts) && blocked_pair(a, b, amounts).is_none() {
            found.push(amounts.clone());
        }
        return;
    }
    let (i, j) = (place / b.len(), place % b.len());
    let most = match form_pair(&a[i], &b[j]) {
        true => a[i].capacity.min(b[j].capacity),
        false => 0,
    };
    for amount in 0..=most {
        amounts[i][j] = amount;
        try_all(a, b, amounts, place + 1, found);
    }
    amounts[i][j] = 0;
}
