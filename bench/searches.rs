//! Compares `ansi_find` with a simple model and with std's `find` on the plain text: each pattern over two letters of up to
//! 12 bytes in each text of up to 14, and long patterns of several kinds, in texts with sequences between the letters. Then
//! prints how long searches for long patterns take in 1 MiB. Panics if two differ.

use ansi_str::AnsiStr;
use std::time::Instant;

const SEQUENCES: [&str; 5] = ["\x1b[1m", "\x1b[31m", "\x1b]0;ab\x07", "\x1b[0m", "\x1b\\"];

/// A small source of numbers, the same at each run.
struct Numbers(u64);

impl Numbers {
    fn below(&mut self, bound: usize) -> usize {
        self.0 = self.0.wrapping_mul(6364136223846793005).wrapping_add(1442695040888963407);
        (self.0 >> 33) as usize % bound
    }
}

/// The first place of the pattern, found by comparing at each place.
fn model(plain: &str, pattern: &str) -> Option<usize> {
    let (x, p) = (plain.as_bytes(), pattern.as_bytes());
    (0..=x.len().checked_sub(p.len())?).find(|&i| &x[i..i + p.len()] == p)
}

fn compare(text: &str, plain: &str, pattern: &str) {
    let found = text.ansi_find(pattern);
    assert_eq!(found, plain.find(pattern), "{text:?} {pattern:?}");
}

/// The word whose letters are the bits of a number, each letter repeated.
fn word(bits: usize, len: usize, times: usize) -> String {
    (0..len).map(|i| if bits >> i & 1 == 1 { "b" } else { "a" }.repeat(times)).collect()
}

/// A text with up to five sequences in a row at some of its places, and at one at least.
fn cut(plain: &str, every: usize, numbers: &mut Numbers) -> String {
    let mut text = String::from(SEQUENCES[0]);
    for letter in plain.chars() {
        if numbers.below(every) == 0 {
            for _ in 0..=numbers.below(5) {
                text.push_str(SEQUENCES[numbers.below(SEQUENCES.len())]);
            }
        }
        text.push(letter);
    }
    text
}

/// Each word in each word.
fn words(longest_text: usize, longest_pattern: usize, numbers: &mut Numbers) -> usize {
    let mut count = 0;
    let patterns: Vec<String> = (1..=longest_pattern).flat_map(|len| (0..1 << len).map(move |bits| word(bits, len, 1))).collect();
    for len in 0..=longest_text {
        for bits in 0..1 << len {
            let plain = word(bits, len, 1);
            let text = cut(&plain, 1 + bits % 4, numbers);
            for pattern in patterns.iter().take_while(|p| p.len() <= len + 1) {
                let found = text.ansi_find(pattern);
                assert_eq!(found, model(&plain, pattern), "{text:?} {pattern:?}");
                assert_eq!(found, plain.find(pattern), "{text:?} {pattern:?}");
                count += 1;
            }
        }
    }
    count
}

/// Each word in each word, with letters repeated until the pattern has more than 256 bytes.
fn long_words(longest_text: usize, longest_pattern: usize, numbers: &mut Numbers) -> usize {
    let mut count = 0;
    for len in 1..=longest_pattern {
        let times = 257 / len + 2;
        for text_len in len..=longest_text {
            for text_bits in 0..1 << text_len {
                let plain = word(text_bits, text_len, times);
                let text = cut(&plain, [3, 40, 300][text_bits % 3], numbers);
                for bits in 0..1 << len {
                    let pattern = word(bits, len, times);
                    let (front, back) = (numbers.below(2), numbers.below(2));
                    compare(&text, &plain, &pattern[front..pattern.len() - back]);
                    count += 1;
                }
            }
        }
    }
    count
}

fn fibonacci(len: usize) -> String {
    let (mut one, mut two) = (String::from("b"), String::from("a"));
    while two.len() < len {
        (one, two) = (two.clone(), two + &one);
    }
    two[..len].to_owned()
}

/// A word of a period, with another letter at some place or without one.
fn periodic(len: usize, period: usize, other: Option<usize>, numbers: &mut Numbers) -> String {
    let root: Vec<u8> = (0..period).map(|_| b'a' + numbers.below(2) as u8).collect();
    let mut bytes: Vec<u8> = root.iter().cycle().take(len).copied().collect();
    if let Some(place) = other {
        bytes[place] = b'c';
    }
    String::from_utf8(bytes).unwrap()
}

/// Long patterns of several kinds, in texts that repeat what they begin with, with them at the end or without.
fn kinds(numbers: &mut Numbers) -> usize {
    let mut count = 0;
    for len in [257, 258, 300, 511, 600, 1001, 4097] {
        let mut patterns = vec![fibonacci(len), "é€".repeat(len / 5 + 52), periodic(len, len, None, numbers)];
        for period in (1..12).chain([50, 127, 128, 129, 200, len / 2, len - 1]) {
            for other in [None, Some(0), Some(1), Some(len / 2), Some(len - 2), Some(len - 1)] {
                patterns.push(periodic(len, period, other, numbers));
            }
        }
        for pattern in patterns {
            let half: String = pattern.chars().take(pattern.chars().count() / 2).collect();
            let most: String = pattern.chars().take(pattern.chars().count() - 1).collect();
            for plain in [
                format!("{half}{half}{half}{half}{pattern}"),
                format!("{most}{most}{most}x{half}"),
                format!("{most}{half}{pattern}{pattern}"),
                half.repeat(9),
                most.clone(),
                pattern.clone(),
            ] {
                for every in [1, 7, 100, 100_000] {
                    compare(&cut(&plain, every, numbers), &plain, &pattern);
                    count += 1;
                }
            }
        }
    }
    count
}

/// The longest time of a search without a match in 1 MiB.
fn times() {
    let texts = [("ESC [1m a", "\x1b[1ma"), ("ESC [m aa", "\x1b[maa"), ("ESC [m, 64 a", "\x1b[maaaaaaaaaaaaaaaaaaaaaaaaaaaaaaaaaaaaaaaaaaaaaaaaaaaaaaaaaaaaaaaa"), ("aab ESC [m ab", "aab\x1b[mab")];
    println!("{:<16} {:>8} {:>10} {:>10} {:>10} {:>10} ms, at the end, the front, the middle; a Fibonacci word", "1 MiB of", "pattern", "a..ab", "ba..a", "a..ba..a", "abaab..");
    for (name, piece) in texts {
        let text = piece.repeat((1 << 20) / piece.len());
        for len in [256, 257, 301, 502, 1001, 4097, 131_073] {
            let with = |place: usize| {
                let mut bytes = vec![b'a'; len];
                bytes[place] = b'b';
                String::from_utf8(bytes).unwrap()
            };
            let mut row = format!("{name:<16} {len:>8}");
            for pattern in [with(len - 1), with(0), with(len / 2), fibonacci(len)] {
                let begin = Instant::now();
                let found = text.ansi_find(&pattern);
                row += &format!(" {:>10.2}", begin.elapsed().as_secs_f64() * 1e3);
                assert_eq!(found, None);
            }
            println!("{row}");
        }
    }
}

fn main() {
    let numbers = &mut Numbers(7);
    println!("{} searches for short words", words(14, 12, numbers));
    println!("{} searches for long words", long_words(10, 7, numbers));
    println!("{} searches for long patterns of several kinds", kinds(numbers));
    times();
}
