// The plain program beside. It makes the same lines, and splits them at line feeds and then at spaces.
// It prints what that took in nanoseconds, how many lines there were and how many bytes. Its last number
// keeps the work from being left out.
use std::fmt::Write;
use std::time::Instant;

fn drawn(place: u32) -> u32 {
    (u64::from(place).wrapping_mul(15_485_863) % 1_000_000) as u32
}

fn main() {
    let mut text = String::new();
    for place in 0..200_000_u32 {
        text.push_str("tx txn [");
        for pair in 0..10 {
            let before = if pair == 0 { "" } else { ";" };
            write!(text, "{before}{},{}", drawn(place * 10 + pair), pair % 2).unwrap();
        }
        writeln!(text, "] {}", place % 100).unwrap();
    }
    let start = Instant::now();
    let mut lines = 0;
    let mut words = 0;
    for line in text.as_bytes().split_inclusive(|byte| *byte == b'\n') {
        lines += 1;
        for word in line.split(|byte| *byte == b' ') {
            words += usize::from(!std::hint::black_box(word).is_empty());
        }
    }
    let spent = start.elapsed().as_nanos();
    println!("{spent} {lines} {} {words}", text.len());
}
