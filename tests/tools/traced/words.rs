// Words in a map, and points sorted, filtered and summed: mostly code of the standard library.
use std::collections::BTreeMap;

struct Point {
    x: f64,
    y: f64,
}

fn drawn(state: &mut u32) -> u32 {
    *state = state.wrapping_mul(1103515245).wrapping_add(12345);
    *state >> 16
}

#[inline(never)]
fn sum(points: &[Point]) -> f64 {
    points.iter().filter(|point| point.x > 10.0).map(|point| point.x * point.y).sum()
}

fn main() {
    let mut state = 1;
    let mut words: BTreeMap<String, u32> = BTreeMap::new();
    let mut points = Vec::new();
    for number in 0..300 {
        let one = drawn(&mut state);
        *words.entry(format!("w{}", one % 64)).or_insert(0) += 1;
        points.push(Point { x: f64::from(one % 256), y: f64::from(number) });
    }
    points.sort_by(|one, other| one.x.partial_cmp(&other.x).unwrap());
    let mut numbers: Vec<u32> = (0..500).map(|_| drawn(&mut state)).collect();
    numbers.sort_unstable();
    let found = (0..200).filter(|number| numbers.binary_search(number).is_ok()).count();
    println!("{} {} {}", sum(&points), words.len(), found);
}
