//! Every point of a small problem, in order, tried by direct evaluation.

use crate::problems::Problem;

/// Calls `visit` with each assignment of the ranges, quantity 0 weighing
/// most, until it says yes; gives that assignment.
pub fn first_point(ranges: &[i64], mut visit: impl FnMut(&[i64]) -> bool) -> Option<Vec<i64>> {
    let mut point: Vec<i64> = ranges.chunks(2).map(|range| range[0]).collect();
    if ranges.chunks(2).any(|range| range[0] > range[1]) {
        return None;
    }
    loop {
        if visit(&point) {
            return Some(point);
        }
        let last = (0..point.len()).rev().find(|&q| point[q] < ranges[2 * q + 1])?;
        point[last] += 1;
        for q in last + 1..point.len() {
            point[q] = ranges[2 * q];
        }
    }
}

/// The first point that satisfies the problem.
pub fn first_solution(problem: &Problem) -> Option<Vec<i64>> {
    first_point(&problem.ranges, |point| satisfies(problem, point))
}

/// Whether a point within the ranges meets every equation and every clause.
pub fn satisfies(problem: &Problem, point: &[i64]) -> bool {
    let value = |quantity: i64| i128::from(point[quantity as usize]);
    let equations = problem.primitives.chunks(4).all(|p| match p[0] {
        1 => value(p[1]) == value(p[2]) + value(p[3]),
        2 => value(p[1]) == value(p[2]) * value(p[3]),
        _ => value(p[1]) == value(p[2]) * value(p[2]),
    });
    let is_true = |literal: &[i64]| match literal[1] {
        0 => value(literal[0]) <= i128::from(literal[2]),
        _ => value(literal[0]) >= i128::from(literal[2]),
    };
    let mut start = 0;
    equations
        && problem.lengths.iter().all(|&length| {
            let end = start + 3 * length as usize;
            let clause = &problem.literals[start..end];
            start = end;
            clause.chunks(3).any(is_true)
        })
}
