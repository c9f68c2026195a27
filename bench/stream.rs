//! Times the program jerungkal over streams of at most 64 KiB: one record of each kind, and dense streams whole.
//! Usage: stream WORDS, the words that run the program. A record's time is the difference between two streams, one with it and one
//! without, over the number of times that it stands there; so it holds the reading of the record and the making of its lines too.
use std::io::{Read, Write};
use std::process::{Command, Stdio};
use std::time::Instant;

mod division;
use division::divide;

const WHOLE: usize = 65536;
const TAG_STEP: u32 = 70000;

// ---- records

fn setup(period: u16, reach: u16, share: u8) -> Vec<u8> {
    let mut r = vec![1];
    r.extend(period.to_be_bytes());
    r.extend(reach.to_be_bytes());
    r.push(12);
    r.extend([share; 8]);
    r.extend([16; 8]);
    r
}

fn address(kind: u8, a: u32) -> Vec<u8> {
    let mut r = vec![kind];
    r.extend(&a.to_be_bytes()[1..]);
    r
}

fn edges(kind: u8, a: u32, near: u16, far: u16) -> Vec<u8> {
    let mut r = address(kind, a);
    r.extend(near.to_be_bytes());
    r.extend(far.to_be_bytes());
    r
}

fn request(unit: u8, a: u32, uf: u8, rr: u8) -> Vec<u8> {
    let mut r = vec![4, unit];
    r.extend(&a.to_be_bytes()[1..]);
    r.extend([uf, 0, rr, 0, 0, 0, 0, 0, 0, 0, 0, 0, 0]);
    r
}

fn plan(tag: u32) -> Vec<u8> {
    let mut r = vec![5];
    r.extend(tag.to_be_bytes());
    r
}

/// A reply to entry 0 at start 0, whose message comes from the aircraft of the address, with some marked bits, every other one of them wrong.
fn reply(plan_tag: u32, near: u16, a: u32, long: bool, marks: usize) -> Vec<u8> {
    let n = if long { 14 } else { 7 };
    let mut msg = vec![0u8; n];
    msg[0] = if long { 20 << 3 } else { 4 << 3 };
    let over = divide(&msg) ^ a;
    msg[n - 3..].copy_from_slice(&over.to_be_bytes()[1..]);
    let mut marked = vec![0u8; n];
    for k in 0..marks {
        let bit = 5 + k * (n * 8 - 5) / 12;
        marked[bit / 8] |= 128 >> (bit % 8);
        if k % 2 == 0 {
            msg[bit / 8] ^= 128 >> (bit % 8);
        }
    }
    let mut r = vec![if long { 7 } else { 6 }, 0];
    r.extend((plan_tag + 531 + near as u32).to_be_bytes());
    r.extend(msg);
    r.extend(marked);
    r
}

// ---- running

/// What the program writes for a stream.
fn answered(words: &[String], stream: &[u8]) -> Vec<u8> {
    let mut child = Command::new(&words[0]).args(&words[1..]).stdin(Stdio::piped()).stdout(Stdio::piped()).spawn().expect("the program runs");
    let mut input = child.stdin.take().unwrap();
    let bytes = stream.to_vec();
    let feeder = std::thread::spawn(move || input.write_all(&bytes).expect("the program reads the stream"));
    let mut out = Vec::new();
    child.stdout.take().unwrap().read_to_end(&mut out).unwrap();
    feeder.join().unwrap();
    assert!(child.wait().unwrap().success());
    out
}

/// The least time of some runs, in seconds.
fn least(words: &[String], stream: &[u8], runs: usize) -> f64 {
    (0..runs)
        .map(|_| {
            let t = Instant::now();
            answered(words, stream);
            t.elapsed().as_secs_f64()
        })
        .fold(f64::MAX, f64::min)
}

// ---- one record of each kind

/// A kind of record: the records before it in a round, and those that are timed.
struct Kind {
    name: &'static str,
    before: Vec<Vec<u8>>,
    timed: Vec<Vec<u8>>,
}

fn kinds() -> Vec<Kind> {
    let first = || setup(65535, 3000, 1);
    let targets = || (1..=64).map(|a| edges(2, a, 1000, 1010)).collect::<Vec<_>>();
    let held = || [vec![first()], targets()].concat();
    let asked = || (0..128).map(|i| request(i as u8 / 16, 1 + i % 64, 20, 16)).collect::<Vec<_>>();
    let one = |uf, rr| vec![first(), edges(2, 1, 1000, 1010), request(0, 1, uf, rr), plan(TAG_STEP)];
    let taken = |name, long, marks| Kind {
        name,
        before: if long { one(20, 16) } else { one(4, 0) },
        timed: vec![reply(TAG_STEP, 1000, 1, long, marks)],
    };
    vec![
        Kind { name: "1 setup", before: vec![], timed: vec![first()] },
        Kind { name: "2 new target", before: vec![first()], timed: targets() },
        Kind { name: "3 remove", before: held(), timed: (1..=64).map(|a| address(3, a)).collect() },
        Kind { name: "4 request", before: held(), timed: asked() },
        Kind { name: "5 plan, nothing waiting", before: held(), timed: (1..=64).map(|k| plan(k * TAG_STEP)).collect() },
        Kind { name: "5 plan, 128 requests waiting", before: [held(), asked()].concat(), timed: vec![plan(TAG_STEP)] },
        taken("6 short reply, no mark", false, 0),
        taken("6 short reply, 5 marks", false, 5),
        taken("6 short reply, 12 marks", false, 12),
        taken("7 long reply, no mark", true, 0),
        taken("7 long reply, 5 marks", true, 5),
        taken("7 long reply, 12 marks", true, 12),
        Kind { name: "8 report", before: held(), timed: (1..=64).map(|a| address(8, a)).collect() },
        Kind { name: "9 move", before: held(), timed: (1..=64).map(|a| edges(9, a, 900, 1010)).collect() },
    ]
}

/// Every record of the round is taken: the third word of its line is 0.
fn all_taken(words: &[String], name: &str, round: &[Vec<u8>]) {
    let out = answered(words, &round.concat());
    let text = String::from_utf8(out).unwrap();
    let mut next = 1;
    for line in text.lines() {
        let words: Vec<&str> = line.split(' ').collect();
        if words[0] == next.to_string() && words.len() >= 3 && words[1] == round[next - 1][0].to_string() {
            assert_eq!(words[2], "0", "{name}: record {next} is refused");
            next += 1;
            if next > round.len() {
                return;
            }
        }
    }
    panic!("{name}: {} of {} records are answered", next - 1, round.len());
}

fn one_of_each(words: &[String]) {
    println!("{:<34} {:>13}", "", "one record");
    for k in kinds() {
        let round = [k.before.clone(), k.timed.clone()].concat();
        all_taken(words, k.name, &round);
        let rounds = WHOLE / round.concat().len();
        let with = least(words, &round.concat().repeat(rounds), 15);
        let without = least(words, &k.before.concat().repeat(rounds), 15);
        let each = (with - without) / (rounds * k.timed.len()) as f64;
        println!("{:<34} {:>10.2} µs", k.name, each * 1e6);
    }
}

// ---- dense streams

fn filled(head: Vec<Vec<u8>>, round: impl Fn(u32) -> Vec<u8>) -> Vec<u8> {
    let mut s = head.concat();
    let mut k = 1;
    loop {
        let more = round(k);
        if s.len() + more.len() > WHOLE {
            return s;
        }
        s.extend(more);
        k += 1;
    }
}

fn dense(words: &[String]) {
    let targets = |near: u16| (1..=64u32).map(|a| edges(2, a, near, near)).collect::<Vec<_>>();
    let asks = |uf: u8, rr: u8| (0..128u32).flat_map(|i| request(i as u8 / 16, 1 + i % 64, uf, rr)).collect::<Vec<u8>>();
    let head = |near| [vec![setup(65535, 13000, 0)], targets(near)].concat();
    let full = |k: u32| [asks(4, 0), plan(k.wrapping_mul(TAG_STEP))].concat();
    let never = [vec![setup(500, 13000, 0)], targets(0), vec![asks(4, 0)]].concat();
    let streams = [
        ("plans of 128 requests", filled(head(0), full)),
        ("plans with nothing waiting", filled(head(0), |k| plan(k.wrapping_mul(TAG_STEP)))),
        ("plans over 128 that never fit", filled(never, |k| plan(k.wrapping_mul(TAG_STEP)))),
    ];
    println!("{:<34} {:>8} {:>13}", "a full stream", "bytes", "whole");
    for (name, s) in &streams {
        println!("{name:<34} {:>8} {:>11.3} s", s.len(), least(words, s, 3));
    }
}

fn main() {
    let words: Vec<String> = std::env::args().skip(1).collect();
    one_of_each(&words);
    dense(&words);
}
