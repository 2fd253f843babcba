//! The kernels as plain loops of iterators. It prints the same lines as `peer.c`.

use std::time::Instant;

#[inline(never)]
fn and_into(into: &mut [u64], other: &[u64]) {
    for (word, other) in into.iter_mut().zip(other) {
        *word &= *other;
    }
}

#[inline(never)]
fn or_into(into: &mut [u64], other: &[u64]) {
    for (word, other) in into.iter_mut().zip(other) {
        *word |= *other;
    }
}

#[inline(never)]
fn count_ones(words: &[u64]) -> u64 {
    words.iter().map(|word| u64::from(word.count_ones())).sum()
}

#[inline(never)]
fn is_subset(inner: &[u64], outer: &[u64]) -> bool {
    inner.iter().zip(outer).all(|(inner, outer)| inner & !outer == 0)
}

#[inline(never)]
fn first_one(words: &[u64]) -> Option<usize> {
    let at = words.iter().position(|word| *word != 0)?;
    Some(64 * at + words[at].trailing_zeros() as usize)
}

#[inline(never)]
fn last_one(words: &[u64]) -> Option<usize> {
    let at = words.iter().rposition(|word| *word != 0)?;
    Some(64 * at + 63 - words[at].leading_zeros() as usize)
}

#[inline(never)]
fn add_over(numbers: &mut [i64], from: usize, to: usize, amount: i64) {
    for number in &mut numbers[from..to] {
        *number += amount;
    }
}

#[inline(never)]
fn max_over(numbers: &[i64], from: usize, to: usize) -> Option<i64> {
    numbers[from..to].iter().copied().max()
}

#[inline(never)]
fn first_above(numbers: &[i64], from: usize, bound: i64) -> Option<usize> {
    (from..numbers.len()).find(|&at| numbers[at] > bound)
}

fn next(state: u64) -> u64 {
    state.wrapping_mul(6364136223846793005).wrapping_add(1442695040888963407)
}

fn sample(len: usize, seed: u64) -> Vec<u64> {
    let mut state = seed;
    (0..len)
        .map(|_| {
            state = next(state);
            state
        })
        .collect()
}

fn measure(name: &str, len: usize, calls: usize, mut call: impl FnMut(&mut u64)) {
    let mut sum = 0;
    let start = Instant::now();
    for _ in 0..calls {
        call(&mut sum);
    }
    println!("{name} {len} {} {calls} {sum}", start.elapsed().as_nanos());
}

fn measure_words(len: usize, calls: usize) {
    let (mut words, others) = (sample(len, 1), sample(len, 2));
    measure("and_into", len, calls, |sum| {
        words[0] ^= *sum & 1;
        and_into(&mut words, &others);
        *sum = sum.wrapping_add(words[0]);
    });
    words = sample(len, 1);
    measure("or_into", len, calls, |sum| {
        words[0] ^= *sum & 1;
        or_into(&mut words, &others);
        *sum = sum.wrapping_add(words[0]);
    });
    words = sample(len, 1);
    measure("count_ones", len, calls, |sum| {
        words[0] ^= *sum & 1;
        *sum = sum.wrapping_add(count_ones(&words));
    });
    let all = vec![u64::MAX; len];
    measure("is_subset", len, calls, |sum| {
        words[0] ^= *sum & 1;
        *sum += u64::from(is_subset(&words, &all));
    });
    words = vec![0; len];
    measure("first_one", len, calls, |sum| {
        words[len - 1] = (*sum & 2) + 2;
        *sum += first_one(&words).map_or(0, |place| place as u64 + 1);
    });
    words = vec![0; len];
    measure("last_one", len, calls, |sum| {
        words[0] = (*sum & 2) + 1;
        *sum += last_one(&words).map_or(0, |place| place as u64 + 1);
    });
}

fn measure_numbers(len: usize, calls: usize) {
    let mut numbers = vec![0; len];
    measure("add_over", len, calls, |sum| {
        add_over(&mut numbers, 0, len, 1);
        *sum += numbers[0] as u64;
    });
    numbers = sample(len, 3).into_iter().map(|number| (number >> 24) as i64).collect();
    measure("max_over", len, calls, |sum| {
        numbers[0] = (*sum & 1) as i64;
        *sum = sum.wrapping_add(max_over(&numbers, 0, len).map_or(0, |most| most as u64));
    });
    measure("first_above", len, calls, |sum| {
        numbers[0] = (*sum & 1) as i64;
        *sum += u64::from(first_above(&numbers, 0, 1 << 40).is_none());
    });
}

fn main() {
    for len in [1, 8, 65, 1024, 65536] {
        let calls = 4_000_000 / (len + 16) + 1;
        measure_words(len, calls);
        measure_numbers(len, calls);
    }
}
