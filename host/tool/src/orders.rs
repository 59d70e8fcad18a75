//! Arrival orders, of the macroblocks of a frame or of both its fields.

use deblock::{Part, Place, Size};
use inputs::Rng;
use std::cmp::Reverse;

/// A macroblock that arrives and is to be visited: of the frame or of which field, and where in it.
#[derive(Clone, Copy, PartialEq, Eq, Debug)]
pub struct Request {
    pub part: Part,
    pub at: Place,
}

pub type Order = Vec<Request>;

/// Of two fields a macroblock of the one and a macroblock of the other, in turn.
pub fn raster(parts: &[Part], size: Size) -> Order {
    size.places().flat_map(|at| parts.iter().map(move |&part| Request { part, at })).collect()
}

/// Those with the smallest key first; those with equal keys in raster order.
fn sorted<K: Ord>(parts: &[Part], size: Size, key: impl Fn(&Request) -> K) -> Order {
    let mut order = raster(parts, size);
    order.sort_by_key(key);
    order
}

/// Diagonals on which all are ready at once (x + 2y is the same), each from its lower end up.
pub fn reverse_diagonal(parts: &[Part], size: Size) -> Order {
    sorted(parts, size, |r| (r.at.x + 2 * r.at.y, Reverse(r.at.y)))
}

/// Down the columns: what the old rule, without the upper right neighbour, allowed.
pub fn columns(parts: &[Part], size: Size) -> Order {
    sorted(parts, size, |r| (r.at.x, r.at.y))
}

pub fn random(parts: &[Part], size: Size, seed: u64) -> Order {
    let mut order = raster(parts, size);
    Rng::new(seed).shuffle(&mut order);
    order
}

/// The orders that every picture is visited in, beside random ones, each with its name.
pub fn named(parts: &[Part], size: Size) -> Vec<(&'static str, Order)> {
    let diagonals = reverse_diagonal(parts, size);
    if parts == [Part::Frame] {
        return vec![("raster order", raster(parts, size)), ("reverse diagonals", diagonals)];
    }
    let is_top = |r: &Request| r.part == Part::TopField;
    vec![
        ("raster order, top field first", sorted(parts, size, |r| !is_top(r))),
        ("raster order, bottom field first", sorted(parts, size, is_top)),
        ("raster order, fields in turn", raster(parts, size)),
        ("reverse diagonals, fields in turn", diagonals),
        ("rows from the lowest up, fields in turn", sorted(parts, size, |r| (Reverse(r.at.y), !is_top(r)))),
    ]
}

#[cfg(test)]
mod tests {
    use super::*;
    use crate::part::FIELDS;

    const SIZE: Size = Size { w: 5, h: 4 };

    fn has_all(order: &[Request], parts: &[Part]) -> bool {
        order.len() == 20 * parts.len() && raster(parts, SIZE).iter().all(|r| order.contains(r))
    }

    #[test]
    fn every_order_has_every_macroblock_once() {
        for parts in [&[Part::Frame][..], &FIELDS] {
            let named = named(parts, SIZE).into_iter().map(|(_, order)| order);
            for order in named.chain([columns(parts, SIZE), random(parts, SIZE, 9)]) {
                assert!(has_all(&order, parts), "{order:?}");
            }
        }
    }

    /// The first three and the last of each order of two fields, as t and b, column and row.
    #[test]
    fn fields_come_one_after_the_other_or_in_turn() {
        let short = |r: &Request| {
            let field = if r.part == Part::TopField { 't' } else { 'b' };
            format!("{field}{}{}", r.at.x, r.at.y)
        };
        let ends = |order: &Order| [0, 1, 2, 39].map(|i| short(&order[i])).join(" ");
        let said: Vec<String> = named(&FIELDS, SIZE).iter().map(|(_, order)| ends(order)).collect();
        let meant = ["t00 t10 t20 b43", "b00 b10 b20 t43", "t00 b00 t10 b43", "t00 b00 t10 b43", "t03 t13 t23 b40"];
        assert_eq!(said, meant);
    }
}
