//! The proved program beside the second one, on texts: readable, damaged, heaps of bytes, and long ones.

use std::io::Write;
use std::process::{Command, Output, Stdio};
use std::thread;

use second::generate::{
    damaged_text, good_text, text, valid_arrivals, Random, TextDamage, Traffic,
};
use second::run_text;

const SEED: u64 = 34;
const OF_ANY_KIND: usize = 200;
const GOOD: usize = 60;
const OF_EACH_DAMAGE: usize = 10;
const LONG: usize = 12;
const LONG_LINES: usize = 3_000;

pub fn compare(program: &str) {
    let texts = texts();
    for text in &texts {
        let expected = run_text(text);
        let printed = run(program, text);
        assert!(
            printed.status.success() && printed.stdout == expected,
            "they differ on {:?}\nproved: {} {:?}\nsecond: {:?}",
            String::from_utf8_lossy(text),
            printed.status,
            String::from_utf8_lossy(&printed.stdout),
            String::from_utf8_lossy(&expected),
        );
    }
    println!("{} texts alike in every byte", texts.len());
}

fn texts() -> Vec<Vec<u8>> {
    let mut random = Random::new(SEED);
    let mut texts = vec![Vec::new()];
    texts.extend((0..OF_ANY_KIND).map(|_| text(&mut random)));
    texts.extend((0..GOOD).map(|_| good_text(&mut random)));
    for damage in TextDamage::ALL {
        texts.extend((0..OF_EACH_DAMAGE).map(|_| damaged_text(&mut random, damage)));
    }
    texts.extend((0..LONG).map(|_| long_text(&mut random)));
    texts
}

/// Thousands of lines of traffic that changes now and then.
fn long_text(random: &mut Random) -> Vec<u8> {
    let ports = random.between(1, 16);
    let records = random.pick(&[ports, 64, 200]);
    let mut text = format!("{ports} {} {records}\n", random.between(1, 8));
    let mut traffic = Traffic::random(random, ports);
    for _ in 0..LONG_LINES {
        if random.one_in(50) {
            traffic = Traffic::random(random, ports);
        }
        let arrivals = valid_arrivals(random, ports, traffic);
        let fields: Vec<String> = arrivals.chunks_exact(2).map(field).collect();
        text += &fields.join(" ");
        text.push('\n');
    }
    text.into_bytes()
}

fn field(words: &[u32]) -> String {
    match words[0].checked_sub(1) {
        Some(output) => format!("{output}:{}", words[1]),
        None => "-".to_string(),
    }
}

/// The program may stop reading before the text ends.
fn run(program: &str, text: &[u8]) -> Output {
    let mut child = Command::new(program)
        .stdin(Stdio::piped())
        .stdout(Stdio::piped())
        .spawn()
        .expect("the program starts");
    let mut input = child.stdin.take().expect("a pipe");
    thread::scope(|scope| {
        scope.spawn(move || {
            let _ = input.write_all(text);
        });
        child.wait_with_output().expect("the program ends")
    })
}
