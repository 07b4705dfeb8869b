//! Whole curves: how they are delayed, joined and united.

use crate::cover::Pair;
use std::iter::Peekable;

/// A trade-off and the first match that reaches it, by its position among those of the node (at a leaf, 0).
#[derive(Clone, Copy, PartialEq, Eq, Debug)]
pub struct Point {
    pub pair: Pair,
    pub first: usize,
}

/// Trade-offs, arrivals rising and areas falling. Empty if there is no cover.
#[derive(Clone, Default, Debug)]
pub struct Curve {
    pub points: Vec<Point>,
}

type Points<'a> = Peekable<std::slice::Iter<'a, Point>>;

impl Curve {
    pub fn single(arrival: u32, area: u32, first: usize) -> Curve {
        Curve { points: vec![Point { pair: Pair { arrival, area }, first }] }
    }

    /// The last point that arrives by `time`: of those in time it has the least area.
    pub fn at(&self, time: u32) -> Option<&Point> {
        let in_time = self.points.partition_point(|point| point.pair.arrival <= time);
        self.points[..in_time].last()
    }

    /// Both together: the later arrival and the sum of the areas, with this curve's
    /// match, after the other has been delayed.
    pub fn join(&self, other: &Curve, delay: u32) -> Curve {
        let mut joined = Vec::with_capacity(self.points.len() + other.points.len());
        let (mut here, mut there) = (self.points.iter().peekable(), other.points.iter().peekable());
        let (mut left, mut right) = (None, None);
        loop {
            let next_left = here.peek().map(|point| point.pair.arrival);
            let next_right = there.peek().map(|point| point.pair.arrival + delay);
            let Some(arrival) = earlier(next_left, next_right) else { break };
            if next_left == Some(arrival) {
                left = here.next();
            }
            if next_right == Some(arrival) {
                right = there.next();
            }
            if let (Some(left), Some(right)) = (left, right) {
                let area = left.pair.area + right.pair.area;
                joined.push(Point { pair: Pair { arrival, area }, first: left.first });
            }
        }
        Curve { points: joined }
    }

    /// The trade-offs among the points of both; of equal points the earlier match's stays.
    pub fn unite(&mut self, other: Curve) {
        let mut united: Vec<Point> = Vec::with_capacity(self.points.len() + other.points.len());
        let (mut here, mut there) = (self.points.iter().peekable(), other.points.iter().peekable());
        while let Some(point) = next_of(&mut here, &mut there) {
            if united.last().is_none_or(|last| point.pair.area < last.pair.area) {
                united.push(*point);
            }
        }
        self.points = united;
    }

    pub fn pairs(&self) -> Vec<Pair> {
        self.points.iter().map(|point| point.pair).collect()
    }
}

/// The first of the points that come next: the earlier, the smaller, the earlier match's.
fn next_of<'a>(here: &mut Points<'a>, there: &mut Points<'a>) -> Option<&'a Point> {
    let rank = |point: &&Point| (point.pair, point.first);
    match (here.peek().map(rank), there.peek().map(rank)) {
        (Some(left), Some(right)) if right < left => there.next(),
        (None, _) => there.next(),
        _ => here.next(),
    }
}

/// The earlier of two times, where there are any.
fn earlier(one: Option<u32>, other: Option<u32>) -> Option<u32> {
    [one, other].into_iter().flatten().min()
}

#[cfg(test)]
mod tests {
    use super::*;

    fn curve(pairs: &[(u32, u32)], first: usize) -> Curve {
        let mut curve = Curve::default();
        pairs.iter().for_each(|&(arrival, area)| curve.unite(Curve::single(arrival, area, first)));
        curve
    }

    fn pairs(curve: &Curve) -> Vec<(u32, u32)> {
        curve.pairs().iter().map(|pair| (pair.arrival, pair.area)).collect()
    }

    #[test]
    fn a_union_keeps_what_nothing_improves_on() {
        let mut both = curve(&[(1, 9), (4, 6), (8, 2)], 3);
        both.unite(curve(&[(1, 10), (3, 6), (8, 2), (9, 2), (10, 1)], 2));
        assert_eq!(pairs(&both), [(1, 9), (3, 6), (8, 2), (10, 1)]);
        assert_eq!(both.points.iter().map(|point| point.first).collect::<Vec<_>>(), [3, 2, 2, 2]);
    }

    #[test]
    fn a_join_waits_for_both() {
        let joined = curve(&[(1, 9), (4, 6)], 0).join(&curve(&[(0, 5), (1, 3), (7, 1)], 0), 2);
        assert_eq!(pairs(&joined), [(2, 14), (3, 12), (4, 9), (9, 7)]);
        assert!(curve(&[(1, 9)], 0).join(&Curve::default(), 0).points.is_empty());
    }

    #[test]
    fn a_time_selects_the_last_point_in_time() {
        let curve = curve(&[(2, 9), (5, 6)], 0);
        assert_eq!(curve.at(1), None);
        assert_eq!(curve.at(2).unwrap().pair.area, 9);
        assert_eq!(curve.at(4).unwrap().pair.area, 9);
        assert_eq!(curve.at(5).unwrap().pair.area, 6);
    }
}
