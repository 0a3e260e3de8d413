// What verbs do, as plain Rust does it: each result in a new vector, with a test where one may be out of range.
// Arguments: a verb, or copy, what it works on, how many items, how many times. For a scalar verb that is its right side (list, atom, bits or letter),
// for others moved (items of a list), small, large or rows (searched and sorted), letters, folds, boxes, or pieces.
use std::collections::{HashMap, HashSet};
use std::fmt::Write as _;
use std::hash::Hash;
use std::hint::black_box;

fn some<T>(n: usize, pairs: impl Iterator<Item = (i64, i64)>, f: impl Fn(i64, i64) -> Option<T>) -> Option<Vec<T>> {
    let mut out = Vec::with_capacity(n);
    for (x, y) in pairs {
        out.push(f(x, y)?);
    }
    Some(out)
}

fn all<X: Copy, T>(pairs: impl Iterator<Item = (X, X)>, f: impl Fn(X, X) -> T) -> Vec<T> {
    pairs.map(|(x, y)| f(x, y)).collect()
}

fn divisor(mut x: u64, mut y: u64) -> u64 {
    while y != 0 {
        (x, y) = (y, x % y);
    }
    x
}

// Of two numbers that aren't 0.
fn multiple(x: i64, y: i64) -> Option<i64> {
    let part = x / i64::try_from(divisor(x.unsigned_abs(), y.unsigned_abs())).ok()?;
    part.checked_mul(y)
}

fn numbers(verb: &str, n: usize, pairs: impl Iterator<Item = (i64, i64)>) {
    match verb {
        "+" => drop(black_box(some(n, pairs, i64::checked_add))),
        "-" => drop(black_box(some(n, pairs, i64::checked_sub))),
        "*" => drop(black_box(some(n, pairs, i64::checked_mul))),
        "%" => drop(black_box(some(n, pairs, |x, y| x.checked_div(y).filter(|_| x % y == 0)))),
        "|" => drop(black_box(some(n, pairs, |x, y| y.checked_rem_euclid(x)))),
        "+." => drop(black_box(some(n, pairs, |x, y| i64::try_from(divisor(x.unsigned_abs(), y.unsigned_abs())).ok()))),
        "*." => drop(black_box(some(n, pairs, multiple))),
        "copy" => drop(black_box(all(pairs, |x: i64, _| x))),
        "<." => drop(black_box(all(pairs, |x: i64, y: i64| x.min(y)))),
        ">." => drop(black_box(all(pairs, |x: i64, y: i64| x.max(y)))),
        "=" => drop(black_box(all(pairs, |x: i64, y: i64| u8::from(x == y)))),
        _ => drop(black_box(all(pairs, |x: i64, y: i64| u8::from(x < y)))),
    }
}

fn bytes(verb: &str, pairs: impl Iterator<Item = (u8, u8)>) {
    match verb {
        "+" => drop(black_box(all(pairs, |x: u8, y: u8| i64::from(x) + i64::from(y)))),
        "*" => drop(black_box(all(pairs, |x: u8, y: u8| x & y))),
        "<." => drop(black_box(all(pairs, |x: u8, y: u8| x.min(y)))),
        _ => drop(black_box(all(pairs, |x: u8, y: u8| u8::from(x == y)))),
    }
}

// Places of a list that count through it by steps of 7919.
fn scattered(n: usize) -> Vec<i64> {
    (0..n).map(|i| (i * 7919 % n) as i64).collect()
}

// x as a square table with its axes swapped.
fn transposed(x: &[i64]) -> Vec<i64> {
    let side = (x.len() as f64).sqrt() as usize;
    let mut out = vec![0; side * side];
    for (i, row) in x.chunks_exact(side).take(side).enumerate() {
        for (j, z) in row.iter().enumerate() {
            out[j * side + i] = *z;
        }
    }
    out
}

// Verbs that move the items of a list.
fn moves(verb: &str, x: &[i64], places: &[i64], mask: &[u8]) {
    match verb {
        "iota" => drop(black_box((0..x.len() as i64).collect::<Vec<i64>>())),
        "reverse" => drop(black_box(x.iter().rev().copied().collect::<Vec<i64>>())),
        "rotate" => drop(black_box([&x[1..], &x[..1]].concat())),
        "take" => drop(black_box(x[..5].to_vec())),
        "drop" => drop(black_box(x[1..].to_vec())),
        "append" => drop(black_box([x, x].concat())),
        "transpose" => drop(black_box(transposed(x))),
        "from" => drop(black_box(places.iter().map(|k| x[*k as usize]).collect::<Vec<i64>>())),
        "mask" => drop(black_box(x.iter().zip(mask).filter(|(_, b)| **b == 1).map(|(x, _)| *x).collect::<Vec<i64>>())),
        "amend" => {
            let mut out = x.to_vec();
            for k in places {
                out[*k as usize] = 5;
            }
            drop(black_box(out));
        }
        _ => drop(black_box(x.to_vec())),
    }
}

// A list with an item more, made anew each time.
fn grown(x: &[i64], times: usize) {
    let mut a = x.to_vec();
    for _ in 0..times {
        a = [&a[..], &[5]].concat();
    }
    drop(black_box(a));
}

// Items that are searched for, in order of y, and sorted.
fn search<T: Copy + Eq + Hash + Ord>(verb: &str, x: &[T], y: &[T]) {
    match verb {
        "index" => {
            let mut first = HashMap::with_capacity(x.len());
            for (k, item) in x.iter().enumerate() {
                first.entry(*item).or_insert(k as i64);
            }
            drop(black_box(y.iter().map(|item| first.get(item).copied().unwrap_or(x.len() as i64)).collect::<Vec<i64>>()));
        }
        "member" => {
            let items: HashSet<T> = y.iter().copied().collect();
            drop(black_box(x.iter().map(|item| u8::from(items.contains(item))).collect::<Vec<u8>>()));
        }
        "nub" => {
            let mut seen = HashSet::with_capacity(x.len());
            drop(black_box(x.iter().filter(|item| seen.insert(**item)).copied().collect::<Vec<T>>()));
        }
        "grade" => {
            let mut places: Vec<usize> = (0..x.len()).collect();
            places.sort_by_key(|k| x[*k]);
            drop(black_box(places.iter().map(|k| *k as i64).collect::<Vec<i64>>()));
        }
        _ => {
            let mut out = x.to_vec();
            out.sort();
            drop(black_box(out));
        }
    }
}

fn searches(verb: &str, side: &str, n: usize, times: usize) {
    let small: Vec<i64> = (0..n as i64).map(|i| i * 7919 % 1000).collect();
    let large: Vec<i64> = (0..n as i64).map(|i| (12345 + 1103515245 * i) % 2147483648).collect();
    let rows: Vec<[i64; 2]> = small.iter().enumerate().map(|(i, x)| [*x, i as i64 % 100]).collect();
    let (mut a, mut b, mut c) = (small.clone(), large.clone(), rows.clone());
    a.reverse();
    b.reverse();
    c.reverse();
    for _ in 0..times {
        match side {
            "small" => search(verb, black_box(&small), &a),
            "large" => search(verb, black_box(&large), &b),
            _ => search(verb, black_box(&rows), &c),
        }
    }
}

// The place of each letter in a short text.
fn letters(n: usize, times: usize) {
    let text: Vec<u8> = (0..n).map(|i| 97 + (i * 7919 % 26) as u8).collect();
    for _ in 0..times {
        let mut place = [3i64; 256];
        for (k, b) in b"abc".iter().enumerate() {
            place[usize::from(*b)] = k as i64;
        }
        drop(black_box(black_box(&text).iter().map(|b| place[usize::from(*b)]).collect::<Vec<i64>>()));
    }
}

// Sums and products that stay in range, or nothing.
fn total(xs: impl DoubleEndedIterator<Item = i64>) -> Option<i64> {
    xs.rev().try_fold(0i64, |sum, x| x.checked_add(sum))
}

// The sums of the columns of a table of so many columns, from the last row.
fn columns(x: &[i64], width: usize) -> Option<Vec<i64>> {
    let mut sums = vec![0i64; width];
    for row in x.chunks_exact(width).rev() {
        for (sum, x) in sums.iter_mut().zip(row) {
            *sum = x.checked_add(*sum)?;
        }
    }
    Some(sums)
}

// The product of a square table with itself.
fn product(x: &[i64], side: usize) -> Option<Vec<i64>> {
    let mut out = Vec::with_capacity(side * side);
    for row in x.chunks_exact(side) {
        let mut sums = vec![0i64; side];
        for (k, a) in row.iter().enumerate() {
            for (sum, b) in sums.iter_mut().zip(&x[k * side..(k + 1) * side]) {
                *sum = sum.checked_add(a.checked_mul(*b)?)?;
            }
        }
        out.extend(sums);
    }
    Some(out)
}

// The last three decimal digits of each number.
fn digits(x: &[i64]) -> Vec<i64> {
    x.iter().flat_map(|x| [x.div_euclid(100).rem_euclid(10), x.div_euclid(10).rem_euclid(10), x.rem_euclid(10)]).collect()
}

// The number of each three decimal digits.
fn value(x: &[i64]) -> Option<Vec<i64>> {
    x.chunks_exact(3).map(|row| row.iter().try_fold(0i64, |sum, d| sum.checked_mul(10)?.checked_add(*d))).collect()
}

fn folds(verb: &str, n: usize, times: usize) {
    let count = if verb == "product" { n * n } else { n };
    let x: Vec<i64> = (0..count as i64).map(|i| 10 + i * 7919 % 90).collect();
    let side = (n as f64).sqrt() as usize;
    let parts = digits(&x);
    for _ in 0..times {
        let x = black_box(&x[..]);
        match verb {
            "sum" => drop(black_box(total(x.iter().copied()))),
            "columns" => drop(black_box(columns(x, side))),
            "lines" => drop(black_box(x.chunks_exact(side).map(|row| total(row.iter().copied())).collect::<Option<Vec<i64>>>())),
            "outer" => drop(black_box((0..n as i64).flat_map(|a| (0..n as i64).map(move |b| a.checked_mul(b))).collect::<Option<Vec<i64>>>())),
            "product" => drop(black_box(product(x, n))),
            "digits" => drop(black_box(digits(x))),
            _ => drop(black_box(value(black_box(&parts)))),
        }
    }
}

// The grid of one line of boxed rows of three numbers, as bytes.
fn shown(rows: &[Vec<i64>]) -> String {
    let texts: Vec<String> = rows.iter().map(|row| format!("{} {} {}", row[0], row[1], row[2])).collect();
    let mut bar = String::new();
    for text in &texts {
        bar.push('+');
        bar.extend(std::iter::repeat('-').take(text.len()));
    }
    bar.push_str("+\n");
    let mut out = bar.clone();
    for text in &texts {
        out.push('|');
        out.push_str(text);
    }
    out.push_str("|\n");
    out.push_str(&bar);
    out
}

// The words of a text of letters, blanks and commas.
fn words(text: &str) -> Vec<String> {
    let mut out = Vec::new();
    let mut word = String::new();
    for c in text.chars() {
        if c.is_ascii_alphabetic() {
            word.push(c);
            continue;
        }
        if !word.is_empty() {
            out.push(std::mem::take(&mut word));
        }
        if c != ' ' {
            out.push(c.to_string());
        }
    }
    if !word.is_empty() {
        out.push(word);
    }
    out
}

fn boxes(verb: &str, n: usize, times: usize) {
    let rows: Vec<i64> = (0..3 * n as i64).map(|i| 10 + i * 7919 % 90).collect();
    let boxed: Vec<Vec<i64>> = rows.chunks_exact(3).map(<[i64]>::to_vec).collect();
    let text: String = "word and another, ".chars().cycle().take(n).collect();
    for _ in 0..times {
        match verb {
            "boxes" => drop(black_box(black_box(&rows).chunks_exact(3).map(<[i64]>::to_vec).collect::<Vec<Vec<i64>>>())),
            "shown" => print!("{}", shown(black_box(&boxed))),
            "razed" => drop(black_box(black_box(&boxed).concat())),
            "words" => drop(black_box(words(black_box(&text)))),
            _ => {
                let mut out = String::new();
                for (k, x) in black_box(&rows)[..n].iter().enumerate() {
                    write!(out, "{}{x}", if k > 0 { " " } else { "" }).unwrap();
                }
                drop(black_box(out));
            }
        }
    }
}

// How often each number stands, in the order of the first ones.
fn tallies(x: &[i64]) -> Vec<i64> {
    let mut places = HashMap::new();
    let mut out = Vec::new();
    for z in x {
        let place = *places.entry(*z).or_insert(out.len());
        if place == out.len() {
            out.push(0);
        }
        out[place] += 1;
    }
    out
}

// The sum up to each number.
fn totals(x: &[i64]) -> Option<Vec<i64>> {
    let mut sum = 0_i64;
    x.iter()
        .map(|z| {
            sum = sum.checked_add(*z)?;
            Some(sum)
        })
        .collect()
}

fn pieces(verb: &str, n: usize, times: usize) {
    let x: Vec<i64> = (0..n as i64).map(|i| 10 + i * 7919 % 90).collect();
    let few: Vec<i64> = (0..n as i64).map(|i| i * 7919 % 1000).collect();
    let many: Vec<i64> = (0..n as i64).map(|i| (12345 + 1_103_515_245 * i) % 2_147_483_648).collect();
    let text: Vec<u8> = b",words,letter,places".iter().copied().cycle().take(n).collect();
    for _ in 0..times {
        match verb {
            "cuts" => drop(black_box(black_box(&text)[1..].split(|c| *c == b',').map(<[u8]>::to_vec).collect::<Vec<Vec<u8>>>())),
            "tallies" => drop(black_box(black_box(&text)[1..].split(|c| *c == b',').map(|word| word.len() as i64).collect::<Vec<i64>>())),
            "few" => drop(black_box(tallies(black_box(&few)))),
            "many" => drop(black_box(tallies(black_box(&many)))),
            "gaps" => drop(black_box(black_box(&x).windows(2).map(|pair| pair[0].checked_sub(pair[1])).collect::<Option<Vec<i64>>>())),
            _ => drop(black_box(totals(black_box(&x)))),
        }
    }
}

fn main() {
    let words: Vec<String> = std::env::args().collect();
    let (verb, side) = (words[1].as_str(), words[2].as_str());
    let n: usize = words[3].parse().unwrap();
    let times: usize = words[4].parse().unwrap();
    match side {
        "small" | "large" | "rows" => return searches(verb, side, n, times),
        "letters" => return letters(n, times),
        "folds" => return folds(verb, n, times),
        "boxes" => return boxes(verb, n, times),
        "pieces" => return pieces(verb, n, times),
        _ => {}
    }
    let x: Vec<i64> = (0..n as i64).map(|i| 10 + i * 7919 % 90).collect();
    let y: Vec<i64> = x.iter().map(|x| 1 + x).collect();
    let z: Vec<i64> = x.iter().zip(&y).map(|(x, y)| x * y * 7).collect();
    let b: Vec<u8> = x.iter().map(|x| u8::from(*x > 50)).collect();
    let c: Vec<u8> = x.iter().map(|x| u8::from(*x > 30)).collect();
    let places = scattered(n);
    let (left, divides) = (if verb == "%" { &z } else { &x }, verb == "|");
    let atom = black_box(7);
    if verb == "grow" {
        return grown(&x, times);
    }
    for _ in 0..times {
        match side {
            "list" if divides => numbers(verb, n, y.iter().copied().zip(z.iter().copied())),
            "list" => numbers(verb, n, left.iter().copied().zip(y.iter().copied())),
            "atom" if divides => numbers(verb, n, z.iter().map(|z| (atom, *z))),
            "atom" => numbers(verb, n, left.iter().map(|x| (*x, atom))),
            "moved" => moves(verb, &x, &places, &b),
            "bits" => bytes(verb, b.iter().copied().zip(c.iter().copied())),
            _ => bytes(verb, b.iter().map(|x| (*x, atom as u8))),
        }
    }
}
