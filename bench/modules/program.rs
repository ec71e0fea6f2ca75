//! A program without imports, of what compilers commonly meet: formatted text, maps, sorting, and errors.
use std::collections::{BTreeMap, HashMap};

/// Counts the words of a text, and answers a table of them as a text of its own.
fn table_of(text: &str) -> String {
    let mut counts = BTreeMap::new();
    for word in text.split_whitespace() {
        *counts.entry(word.to_lowercase()).or_insert(0u32) += 1;
    }
    let mut rows: Vec<_> = counts.into_iter().collect();
    rows.sort_by(|a, b| b.1.cmp(&a.1).then(a.0.cmp(&b.0)));
    rows.iter().map(|(word, count)| format!("{word:>12} {count}\n")).collect()
}

/// The sum of the numbers in a text, or where it isn't a number.
fn sum_of(text: &str) -> Result<f64, String> {
    text.split(',')
        .enumerate()
        .map(|(place, number)| number.trim().parse::<f64>().map_err(|e| format!("{place}: {e:?}")))
        .sum()
}

/// The greatest number of steps to 1, over the numbers up to a limit.
#[no_mangle]
pub extern "C" fn longest(limit: u32) -> u32 {
    let mut known = HashMap::with_hasher(std::hash::BuildHasherDefault::<
        std::collections::hash_map::DefaultHasher,
    >::default());
    known.insert(1u64, 0u32);
    let mut longest = 0;
    for first in 1..=u64::from(limit) {
        let (mut path, mut n) = (Vec::new(), first);
        while !known.contains_key(&n) {
            path.push(n);
            n = if n % 2 == 0 { n / 2 } else { 3 * n + 1 };
        }
        let mut steps = known[&n];
        for n in path.into_iter().rev() {
            steps += 1;
            known.insert(n, steps);
        }
        longest = longest.max(steps);
    }
    longest
}

/// The length of what the two texts come to.
#[no_mangle]
pub extern "C" fn lengths(seed: u32) -> usize {
    let text = format!("{seed} a b {} a {:?}", seed / 3, Some(seed));
    let sum = sum_of(&format!("{seed}, {}", f64::from(seed) / 7.0));
    table_of(&text).len() + format!("{sum:?}").len()
}
