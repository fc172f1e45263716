//! The replay of a log (document 02, 2026-11): logs and texts written here by hand; logs cut at each byte, and with each byte changed into each other;
//! lines of another shape as the first and in the middle; numbers too large to hold, sizes, numbers of files and their ranges; logs of 0, 65,536 and
//! 65,537 bytes; random logs of few and of many files; each line against queries; rooms.

use crate::calls::POWERS;
use crate::inventory::LENGTH;
use crate::{calls, expected, replay, rounds, small, Counts, Random};

/// The first bytes of a log, to be shown.
fn shown(log: &[u8]) -> String {
    format!("a log of {} bytes, {:?}", log.len(), String::from_utf8_lossy(log).chars().take(99).collect::<String>())
}

/// A log against what the documents say of it, in a room that its text just fills: the text.
fn text(counts: &mut Counts, log: &[u8]) -> String {
    let length = replay::replay(log).len();
    let (room, more) = (vec![0xee; length], [0xee; 3]);
    let got = calls::replay(log, &[&room[..], &more].concat());
    counts.same(|| shown(log), &got, &expected::replay(log, &[&room[..], &more].concat()));
    String::from_utf8_lossy(&got.1[..got.1.len().min((got.0 / 32) as usize)]).into_owned()
}

/// The lines, a bar between two of them, as a log or as a text.
fn lines(joined: &str) -> String {
    joined.split_terminator(" | ").map(|line| format!("{line}\n")).collect()
}

/// The lines of a log give these.
fn gives(counts: &mut Counts, log: &str, want: &str) {
    let got = text(counts, lines(log).as_bytes());
    counts.same(|| format!("what is printed of {}", shown(log.as_bytes())), got, lines(want));
}

/// So much of the request and of document 01's soundings P10 to P12 as a log.
fn by_hand(counts: &mut Counts) {
    gives(counts, "2 2 1 | V 2 | F 1 | V 2", "none | 2 | refused 11");
    gives(counts, "2 2 1", "");
    gives(counts, "2 2 1 | V 1 | V 2 | f 1 | F 2 | F 1 | f 2 | v 1 | v 2 | v 2", "none | 1 2 | refused 11 | 1 | none | 2 | 2 | none | refused 11");
    gives(counts, "3 0 5 0 | F 2 | F 1 | F 3 | f 1", "1 3 | 3 | none | 1");
    gives(counts, "3 0 5 0 | V 252 | V 253 | v 0", "1 2 3 | refused 10 | refused 10");
    gives(counts, "1 1 | F 0 | F 1 | F 1 | F 2 | f 2", "refused 10 | none | refused 11 | refused 10 | refused 10");
    gives(counts, "1 1 | F 1 | V 254 | V 255 | f 1", "none | none | refused 10 | 1");
    gives(counts, "1 1 | F 0 | F 00 | F 1", "refused 10 | refused 28");
    gives(counts, "1 1 | F 1 |  | F 1", "none | refused 28");
    let all: String = (1..=24).filter(|f| ![7, 24].contains(f)).map(|f| format!(" | F {f}")).collect();
    let log = format!("24{}{all} | V 1 | V 4 | f 5 | V 2 | F 5", " 1".repeat(24));
    gives(counts, &log, &("none | ".repeat(24) + "5 | 5 7 24 | 7 24"));
}

/// A line of another shape in the place of the first, and of the second of three events; a first line that is right is refused as an event.
fn shapes(counts: &mut Counts) {
    let spaces = ["", " ", "1 1 ", " 1 1", "1  1", "1\t1", "1 1\r", "1 1\0"];
    let words = ["a", "01 1", "1 01", "1 00", "+1 1", "1 -1", "1,1", "1 1.0", "1 1 x", "1 0x1", "F 1"];
    for line in spaces.into_iter().chain(words) {
        gives(counts, &format!("{line} | F 1"), "refused 28");
        gives(counts, &format!("1 1 | F 1 | {line} | f 1"), if line == "F 1" { "none | refused 11 | none" } else { "none | refused 28" });
    }
    let spaces = ["F", "F ", "F  1", "F1", " F 1", "F 1 ", "F\t1", "F 1\r", "V ", "v"];
    let words = ["F 01", "F 00", "V 01", "f 01", "v 01", "F 1 1", "F +1", "F -1", "F x", "F 1x", "G 1", "x 1", "FF 1", "1 1", "1", "none", "refused 1"];
    for line in spaces.into_iter().chain(words) {
        gives(counts, &format!("1 1 | F 1 | {line} | f 1"), "none | refused 28");
        gives(counts, &format!("1 1 | {line}"), "refused 28");
        let want = if line == "1 1" { "" } else if line == "1" { "refused 10" } else { "refused 28" };
        gives(counts, line, want);
    }
    for letter in 0..=255u8 {
        let log = [b"1 1\n", &[letter][..], b" 1\n"].concat();
        let got = text(counts, &log);
        let want = match letter {
            b'F' => "none\n",
            b'V' => "1\n",
            b'f' | b'v' => "refused 11\n",
            _ => "refused 28\n",
        };
        counts.same(|| format!("letter {letter}"), got, want.into());
    }
}

/// A number too large to hold: 1 as a size, 10 elsewhere, and the shape goes before any value.
fn numbers(counts: &mut Counts) {
    let max = u64::MAX as u128;
    let large = [max, max + 1, max + 2, max + 3, 10 * max, 1 << 65, u128::MAX].map(|x| x.to_string());
    let more = ["9".repeat(20), "1".to_string() + &"0".repeat(63), "7".repeat(if small() { 500 } else { 30_000 })];
    for number in large.iter().chain(&more) {
        gives(counts, &format!("1 {number} | F 1"), "refused 1");
        gives(counts, &format!("2 1 {number} | F 1"), "refused 1");
        gives(counts, &format!("2 {number} | F 1"), "refused 10");
        gives(counts, &format!("1 {number} 1"), "refused 10");
        gives(counts, &format!("{number} 1"), "refused 10");
        gives(counts, &format!("{number} {number}"), "refused 10");
        gives(counts, &format!("{number}"), "refused 10");
        gives(counts, &format!("1 {number} x"), "refused 28");
        gives(counts, &format!("{number} 01"), "refused 28");
        for letter in ["F", "V", "f", "v"] {
            gives(counts, &format!("1 1 | {letter} {number} | V 1"), "refused 10 | 1");
            gives(counts, &format!("1 1 | {letter} 0{number} | V 1"), "refused 28");
        }
    }
    for number in [256u128, 257, 65_537, (1 << 32) + 1, (1 << 64) + 1] {
        gives(counts, &format!("1 1 | F {number} | V {number} | V 1"), "refused 10 | refused 10 | 1");
    }
}

/// The number of files and their sizes, and the ranges that they give.
fn sizes(counts: &mut Counts) {
    for (size, want) in [("16777216", ""), ("16777217", "refused 1"), ("0", ""), ("4294967296", "refused 1")] {
        gives(counts, &format!("1 {size}"), want);
        gives(counts, &format!("3 1 {size} 1"), want);
        gives(counts, &format!("2 1 {size} 1"), "refused 10");
    }
    for (n, sizes) in [(0, 0), (0, 1), (1, 0), (1, 2), (2, 1), (254, 253), (254, 255), (255, 255), (255, 254), (256, 256), (300, 300), (1, 257), (1, 32_000)] {
        gives(counts, &format!("{n}{}", " 3".repeat(sizes)), "refused 10");
    }
    for n in [1usize, 2, 127, 253, 254] {
        let last = 255 - n;
        let head = format!("{n}{}", " 0".repeat(n));
        let all: Vec<String> = (1..=n).map(|f| f.to_string()).collect();
        let but_last = if n == 1 { "none".to_string() } else { all[..n - 1].join(" ") };
        let log = format!("{head} | F {n} | F {} | V {last} | V {} | v {last} | f {n}", n + 1, last + 1);
        gives(counts, &log, &format!("{but_last} | refused 10 | {but_last} | refused 10 | {but_last} | {}", all.join(" ")));
    }
}

/// Each byte of a log changed into each other, and the log cut at each byte: a cut inside a line is an unended one.
fn each_byte(counts: &mut Counts) {
    let log = b"3 2 0 10\nV 12\nF 1\nv 3\nf 1\n";
    for place in (0..log.len()).step_by(if small() { 13 } else { 1 }) {
        for byte in 0..=255 {
            let mut changed = log.to_vec();
            changed[place] = byte;
            text(counts, &changed);
        }
    }
    let whole = ["2", "2 3", "refused 11", "2"];
    for n in 0..=log.len() {
        let ended = log[..n].iter().filter(|&&b| b == 10).count();
        let mut want: Vec<&str> = whole[..ended.saturating_sub(1)].to_vec();
        if n == 0 || log[n - 1] != 10 {
            want.push("refused 28");
        }
        let got = text(counts, &log[..n]);
        counts.same(|| format!("a log cut at byte {n}"), got, want.iter().map(|line| format!("{line}\n")).collect());
    }
}

/// "A log above 65,536 bytes gives only `refused 1`", whatever it is; one of 65,536 is replayed.
fn lengths(counts: &mut Counts) {
    let head = b"1 1\n".to_vec();
    for n in [65_535, 65_536, 65_537, 65_540, 100_000] {
        let events: Vec<u8> = b"F 1\nf 1\n".iter().copied().cycle().take(n - head.len()).collect();
        if !small() || n > 65_536 {
            let got = text(counts, &[&head[..], &events].concat());
            let end = if n % 4 == 0 { "" } else { "refused 28\n" };
            counts.same(|| format!("{n} bytes"), got, if n > 65_536 { "refused 1\n".into() } else { "none\n".repeat((n - 4) / 4) + end });
        }
        let first = if n > 65_536 { "refused 1\n" } else { "refused 28\n" };
        for bytes in [vec![0; n], vec![b'\n'; n], vec![b'1'; n], [&b"x\n"[..], &vec![b' '; n - 2]].concat()] {
            let got = text(counts, &bytes);
            counts.same(|| format!("{n} other bytes"), got, first.into());
        }
        let digits = [b"1 ", &vec![b'9'; n - 3][..], b"\n"].concat();
        let got = text(counts, &digits);
        counts.same(|| format!("a size of {} digits", n - 3), got, "refused 1\n".into());
    }
    let log = [&b"254"[..], &b" 0".repeat(254), b"\n", &b"V 1\nv 1\n".repeat(if small() { 50 } else { 8128 })].concat();
    let got = text(counts, &log);
    let line = (1..=254).map(|f| f.to_string()).collect::<Vec<_>>().join(" ") + "\n";
    counts.same(|| "the longest text".into(), got == line.repeat((log.len() - 512) / 4), true);
}

/// A log of random events, most of them accepted; seldom a line of another shape, and seldom an unended one.
fn random_log(random: &mut Random, n: usize, volumes: usize, events: usize, wrong: bool) -> Vec<u8> {
    let sizes: String = (0..n).map(|_| [" 0", " 1", " 2", " 16777216"][random.below(4)]).collect();
    let mut log = format!("{n}{sizes}\n");
    for _ in 0..events {
        let letter = ['F', 'V', 'V', 'V', 'f', 'v'][random.below(6)];
        let last = if "Ff".contains(letter) { n } else { volumes };
        let number = if random.below(9) == 0 { random.below(last + 2) } else { 1 + random.below(last) };
        log += &format!("{letter} {number}\n");
    }
    let mut log = log.into_bytes();
    if wrong {
        let place = random.below(log.len());
        match random.below(4) {
            0 => drop(log.remove(place)),
            1 => log.insert(place, b"0 1\nFv"[random.below(6)]),
            2 => log[place] = b"0 1\nFvx"[random.below(7)],
            _ => log.truncate(place),
        }
    }
    log
}

fn random_logs(counts: &mut Counts, random: &mut Random) {
    for round in 0..rounds(6_000) {
        let n = 1 + random.below(9);
        text(counts, &random_log(random, n, 9.min(255 - n), 25, round % 2 == 0));
    }
    for n in [20, 40, 127, 200, 254] {
        for _ in 0..rounds(3) {
            text(counts, &random_log(random, n, 255 - n, rounds(60), false));
        }
    }
    for n in 0..rounds(3_000) {
        text(counts, &(0..n % 40).map(|_| b"0129 \nFVfv"[random.below(10)]).collect::<Vec<u8>>());
    }
}

/// All files missing, volumes added one after another and then files: the longest eliminations.
fn many_missing(counts: &mut Counts, random: &mut Random) {
    let (n, volumes) = if small() { (20, 25) } else { (127, 128) };
    let mut log = format!("{n}{}\n", " 1".repeat(n));
    (1..=volumes).rev().for_each(|v| log += &format!("V {v}\n"));
    for _ in 0..20 {
        log += &format!("F {}\nv {}\n", 1 + random.below(n), 1 + random.below(volumes));
    }
    text(counts, log.as_bytes());
}

/// The lines of a log are those that the calls on an inventory give: the number of each change, and which queries are accepted.
fn against_queries(counts: &mut Counts, random: &mut Random) {
    for round in 0..rounds(400) {
        let n = 1 + random.below(if round % 20 == 0 { 60 } else { 9 });
        let log = random_log(random, n, 12.min(255 - n), 30, false);
        let log = String::from_utf8(log).unwrap();
        let (head, events) = log.split_once('\n').unwrap();
        let sizes: Vec<u8> = head.split(' ').skip(1).flat_map(|size| size.parse::<u64>().unwrap().to_le_bytes()).collect();
        let mut inventory = calls::open(POWERS, n as u64, &sizes, &[0; LENGTH]).1;
        let mut want = String::new();
        for event in events.lines() {
            let (letter, number) = event.split_once(' ').unwrap();
            let change = replay::change(letter.as_bytes()[0]).unwrap();
            let (refusal, next) = calls::change(&inventory, change, number.parse().unwrap());
            inventory = next;
            let back: Vec<String> = (1..=n).filter(|&f| calls::query(&inventory, f as u64, &[0; 255]).0 == 0).map(|f| f.to_string()).collect();
            let files = if back.is_empty() { "none".to_string() } else { back.join(" ") };
            want += &if refusal == 0 { files + "\n" } else { format!("refused {refusal}\n") };
        }
        let got = text(counts, log.as_bytes());
        counts.same(|| format!("queries of {}", shown(log.as_bytes())), got, want);
    }
}

/// 14 where the text does not fit, and nothing is written; what is past it stays.
fn rooms(counts: &mut Counts) {
    let logs: [&[u8]; 6] = [b"2 2 1\nV 2\nF 1\nV 2\n", b"", b"1 1\n", b"1 1\nx", b"1 16777217\n", &[b'1'; 65_537]];
    for log in logs {
        let length = replay::replay(log).len();
        for n in 0..=length + 3 {
            let got = calls::replay(log, &vec![0xee; n]);
            counts.same(|| format!("a room of {n} bytes for {}", shown(log)), &got, &expected::replay(log, &vec![0xee; n]));
            let want = if n < length { 14 } else { 32 * length as u64 };
            counts.same(|| format!("the answer with {n} of {length} bytes"), got.0, want);
        }
    }
}

pub fn run(counts: &mut Counts, random: &mut Random) {
    by_hand(counts);
    shapes(counts);
    numbers(counts);
    sizes(counts);
    each_byte(counts);
    lengths(counts);
    random_logs(counts, random);
    many_missing(counts, random);
    against_queries(counts, random);
    rooms(counts);
}
