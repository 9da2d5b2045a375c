//! Reads lines from standard input and parses the numbers in them, and does nothing else: what any reader of a script has to do.
//! It prints how many lines and numbers there were, and the sum of the numbers.

use std::io::{self, BufRead};

fn main() -> io::Result<()> {
    let mut input = io::stdin().lock();
    let mut line = String::new();
    let mut words: Vec<i32> = Vec::new();
    let (mut lines, mut numbers, mut sum) = (0u64, 0u64, 0i64);
    while input.read_line(&mut line)? > 0 {
        words.clear();
        words.extend(line.split_ascii_whitespace().filter_map(|field| field.parse::<i32>().ok()));
        lines += 1;
        numbers += words.len() as u64;
        sum += words.iter().map(|&word| i64::from(word)).sum::<i64>();
        line.clear();
    }
    println!("{lines} lines, {numbers} numbers, sum {sum}");
    Ok(())
}
