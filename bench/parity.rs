// Times the proved library against the same rules written anew in Rust, both built for release, in one run.
// Every input is first answered by both, and a difference stops the run. Built with `--cfg before` (bench/against) it times
// the library of an earlier revision instead, whose names begin with `before_`; one from before the places reads the first eight words alone.
use std::hint::black_box;
use std::time::Instant;

mod division;

// A proved library, by the names of its calls. The slices are whole and live as long as the call, which is all that it asks.
macro_rules! library {
    ($name:ident, $remainder:literal, $correct:literal) => {
        mod $name {
            extern "C" {
                #[link_name = $remainder]
                fn reckon(msg: *const u8, len: usize) -> u64;
                #[link_name = $correct]
                fn mend(
                    msg: *const u8,
                    len: usize,
                    marks: *const u8,
                    marks_len: usize,
                    overlay: u32,
                    limit: u32,
                    out: *mut u8,
                    out_len: usize,
                    places: *mut u8,
                    places_len: usize,
                ) -> u64;
            }

            pub fn remainder(msg: &[u8]) -> u64 {
                unsafe { reckon(msg.as_ptr(), msg.len()) }
            }

            pub fn correct(msg: &[u8], marks: &[u8], overlay: u32, limit: u32, out: &mut [u8], places: &mut [u8]) -> u64 {
                let (n, m, o, p) = (msg.len(), marks.len(), out.len(), places.len());
                let (out, places) = (out.as_mut_ptr(), places.as_mut_ptr());
                unsafe { mend(msg.as_ptr(), n, marks.as_ptr(), m, overlay, limit, out, o, places, p) }
            }
        }
    };
}

library!(proved, "jerungkal_remainder", "jerungkal_correct");

#[cfg(before)]
library!(before, "before_jerungkal_remainder", "before_jerungkal_correct");

// A correction: message, marks, overlay, limit, and the buffers for the output and the places.
type Correct = fn(&[u8], &[u8], u32, u32, &mut [u8], &mut [u8]) -> u64;

// What the library is timed against.
#[cfg(before)]
use before as other;
#[cfg(not(before))]
use plain as other;

// The same rules in Rust.
mod plain {
    use super::division::divide;

    // What a byte at x^24 to x^31 leaves: FFF409 for x^24, 1C1B moved up for each power above it.
    fn overflow(h: u32) -> u32 {
        let k = h >> 1;
        let twice = k ^ k << 1;
        (h & 1) * 0xFF_F409 ^ (twice ^ k << 2) << 10 ^ twice << 3 ^ twice
    }

    fn byte(r: u32, b: u8) -> u32 {
        overflow(r >> 16) ^ ((r & 0xFFFF) << 8 | b as u32)
    }

    fn bytes(msg: &[u8]) -> u32 {
        msg.iter().fold(0, |r, &b| byte(r, b))
    }

    #[inline(never)]
    pub fn bit_loop(msg: &[u8]) -> u64 {
        match msg.len() {
            7 | 14 => divide(msg) as u64,
            _ => 1 << 32,
        }
    }

    #[inline(never)]
    pub fn remainder(msg: &[u8]) -> u64 {
        match msg.len() {
            7 | 14 => bytes(msg) as u64,
            _ => 1 << 32,
        }
    }

    // The syndrome of x^k: a power below x^24 is its own, and a byte of zeros moves it up by eight.
    pub fn syndrome(k: usize) -> u32 {
        let at = if k < 24 { k } else { 16 + k % 8 };
        (at..k).step_by(8).fold(1 << at, |r, _| byte(r, 0))
    }

    fn bit(s: &[u8], i: usize) -> bool {
        s[i / 8] >> (7 - i % 8) & 1 == 1
    }

    // The first k syndromes are each taken or not, and the matches are counted; the last one is decided on the spot.
    fn count(syns: &[u32; 12], k: usize, want: u32) -> u32 {
        if k == 0 {
            return (want == 0) as u32;
        }
        let with = want ^ syns[k - 1];
        if k == 1 {
            return (with == 0) as u32 + (want == 0) as u32;
        }
        count(syns, k - 1, with) + count(syns, k - 1, want)
    }

    #[inline(never)]
    pub fn correct(msg: &[u8], marks: &[u8], overlay: u32, limit: u32, out: &mut [u8], places: &mut [u8]) -> u64 {
        let n = msg.len();
        if !(n == 7 || n == 14) || marks.len() != n || out.len() != n || places.len() != n {
            return 1 << 32;
        }
        if overlay > 0xFF_FFFF || limit > 12 {
            return 2 << 32;
        }
        let mut syns = [0u32; 12];
        let mut many = 0;
        for k in 0..n * 8 {
            if bit(marks, n * 8 - 1 - k) {
                if many < 12 {
                    syns[many] = syndrome(k);
                }
                many += 1;
            }
        }
        if many > limit as usize {
            return 11 << 32;
        }
        let want = bytes(msg) ^ overlay;
        match count(&syns, many, want) {
            0 => 12 << 32,
            1 => rebuild(msg, marks, &syns, (many, want), out, places),
            _ => 13 << 32,
        }
    }

    // The one match, by asking at each marked bit whether it is taken.
    fn rebuild(msg: &[u8], marks: &[u8], syns: &[u32; 12], sought: (usize, u32), out: &mut [u8], places: &mut [u8]) -> u64 {
        let ((mut left, mut want), mut flips) = (sought, 0u64);
        for (j, (b, p)) in out.iter_mut().zip(places).enumerate() {
            let mut mask = 0u8;
            for t in 0..8 {
                mask <<= 1;
                if bit(marks, j * 8 + t) {
                    left -= 1;
                    let with = want ^ syns[left];
                    if count(syns, left, with) == 1 {
                        want = with;
                        mask |= 1;
                        flips += 1;
                    }
                }
            }
            *b = msg[j] ^ mask;
            *p = mask;
        }
        flips
    }
}

// A small generator of test bytes, so that every run times the same inputs.
struct Bytes(u64);

impl Bytes {
    fn next(&mut self) -> u8 {
        self.0 = self.0.wrapping_mul(6364136223846793005).wrapping_add(1442695040888963407);
        (self.0 >> 33) as u8
    }
}

// A message with some marked bits in its first bytes, every other one of them wrong, and the overlay that the sent message had.
struct Case {
    msg: Vec<u8>,
    marks: Vec<u8>,
    overlay: u32,
}

fn case(source: &mut Bytes, n: usize, first: usize, marked: usize) -> Case {
    let sent: Vec<u8> = (0..n).map(|_| source.next()).collect();
    let overlay = division::divide(&sent);
    let (mut msg, mut marks) = (sent, vec![0u8; n]);
    let mut many = 0;
    while many < marked {
        let (at, bit) = (source.next() as usize % first, 1u8 << (source.next() % 8));
        if marks[at] & bit == 0 {
            marks[at] |= bit;
            if many % 2 == 0 {
                msg[at] ^= bit;
            }
            many += 1;
        }
    }
    Case { msg, marks, overlay }
}

// Nanoseconds for each call: the least of many short rounds, the two taken in turn so that both see the same machine.
fn race<A: FnMut(usize), B: FnMut(usize)>(calls: usize, mut a: A, mut b: B) -> (f64, f64) {
    let (mut best_a, mut best_b) = (f64::MAX, f64::MAX);
    for _ in 0..60 {
        let start = Instant::now();
        (0..calls).for_each(&mut a);
        best_a = best_a.min(start.elapsed().as_nanos() as f64 / calls as f64);
        let start = Instant::now();
        (0..calls).for_each(&mut b);
        best_b = best_b.min(start.elapsed().as_nanos() as f64 / calls as f64);
    }
    (best_a, best_b)
}

fn line(what: &str, proved: f64, other: f64) {
    println!("{what:<40} {proved:>10.1} ns {other:>10.1} ns {:>8.2}", proved / other);
}

// The message with bit i alone, from 0, is divided bit by bit.
fn syndromes_agree() {
    for i in 0..112 {
        let mut msg = [0u8; 14];
        msg[i / 8] = 0x80 >> (i % 8);
        assert_eq!(plain::syndrome(111 - i), division::divide(&msg));
    }
}

fn agree(source: &mut Bytes) {
    for round in 0..4000 {
        let n = [7, 14][round % 2];
        let c = case(source, n, n, round % 14);
        let limit = (round % 15) as u32;
        let answered = |f: Correct| {
            let (mut out, mut places) = (vec![1u8; n], vec![2u8; n]);
            let number = f(&c.msg, &c.marks, c.overlay, limit, &mut out, &mut places);
            ((number, out), places)
        };
        for remainder in [plain::remainder, plain::bit_loop, other::remainder] {
            assert_eq!(proved::remainder(&c.msg), remainder(&c.msg));
        }
        assert_eq!(answered(proved::correct), answered(plain::correct));
        assert_eq!(answered(proved::correct).0, answered(other::correct).0);
    }
}

fn main() {
    let mut source = Bytes(20);
    agree(&mut source);
    syndromes_agree();
    let against = if cfg!(before) { "before" } else { "Rust" };
    println!("{:<40} {:>13} {against:>13} {:>8}", "", "proved", "ratio");
    for n in [7, 14] {
        let cases: Vec<Case> = (0..16).map(|_| case(&mut source, n, n, 0)).collect();
        let run = |f: fn(&[u8]) -> u64| {
            let cases = &cases;
            move |i: usize| {
                black_box(f(black_box(&cases[i % 16].msg)));
            }
        };
        let (p, q) = race(20000, run(proved::remainder), run(other::remainder));
        line(&format!("remainder of {n} bytes"), p, q);
        if !cfg!(before) {
            let (p, q) = race(20000, run(proved::remainder), run(plain::bit_loop));
            line(&format!("remainder of {n} bytes, bit loop"), p, q);
        }
    }
    for n in [7, 14] {
        for (marked, first) in [(0, n), (5, n), (5, 1), (12, n)] {
            let cases: Vec<Case> = (0..16).map(|_| case(&mut source, n, first, marked)).collect();
            let run = |f: Correct| {
                let cases = &cases;
                let (mut out, mut places) = (vec![0u8; n], vec![0u8; n]);
                move |i: usize| {
                    let c = &cases[i % 16];
                    black_box(f(black_box(&c.msg), black_box(&c.marks), black_box(c.overlay), 12, &mut out, &mut places));
                }
            };
            let calls = [4000, 2000, 100][(marked + 4) / 8];
            let (p, q) = race(calls, run(proved::correct), run(other::correct));
            let whereabouts = if first < n { " in the first" } else { "" };
            line(&format!("correct, {n} bytes, {marked} marks{whereabouts}"), p, q);
        }
    }
}
