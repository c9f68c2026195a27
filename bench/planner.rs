//! The proved planner beside two independent versions in Rust: one with the same method, which jumps past what is in the way, and
//! one that tries every start. All three must give the same plan. Random cases, then worst cases found by search; 128 requests, L 65,535.
//!
//! The bound on paper. Beside n entries a request meets at most 5n overlaps (four pairs of intervals and the whole spans), each pair's
//! forbids one run of starts, and the start only grows, so there are at most 5n jumps. Each round but the last has one, so a request takes
//! at most n(5n + 1) steps. With shares that were accepted each request is tried once, so a plan of 128 takes at most
//! 5(0² + 1² + .. + 127²) + (0 + 1 + .. + 127) = 3,462,528 steps. The run prints the most that was found, and the time of a step.
use std::time::Instant;

#[repr(C)]
#[derive(Clone, Copy, Default)]
struct Request {
    unit: u8,
    address: u32,
    uf: u8,
    pc: u8,
    rr: u8,
    di: u8,
    sd: u16,
    ma: u64,
}

#[repr(C)]
#[derive(Clone, Copy, Default)]
struct Ask {
    request: Request,
    near: u16,
    far: u16,
}

#[repr(C)]
#[derive(Clone, Copy)]
struct Asks {
    list: [Ask; 128],
    n: usize,
}

#[repr(C)]
#[derive(Clone, Copy)]
struct Setup {
    period: u16,
    reach: u16,
    limit: u8,
    guarantee: [u8; 8],
    ceiling: [u8; 8],
}

#[repr(C)]
#[derive(Clone, Copy)]
struct PlanJob {
    setup: Setup,
    asks: Asks,
}

#[repr(C)]
struct PlanRows {
    placed: usize,
    waiting: usize,
    starts: [u16; 128],
    numbers: [u64; 128],
}

#[cfg(not(target_arch = "aarch64"))]
extern "C" {
    fn jerungkal_plan(job: PlanJob) -> PlanRows;
}

/// The module is made for x86-64's way to pass a struct; compiled for Arm it takes the places of the answer and of the job.
#[cfg(target_arch = "aarch64")]
unsafe fn jerungkal_plan(mut job: PlanJob) -> PlanRows {
    extern "C" {
        #[link_name = "jerungkal_plan"]
        fn plan_at(rows: *mut PlanRows, job: *mut PlanJob) -> *mut PlanRows;
    }
    let mut rows = std::mem::MaybeUninit::uninit();
    plan_at(rows.as_mut_ptr(), &mut job);
    rows.assume_init()
}

#[derive(Clone, Copy)]
struct Entry {
    ask: Ask,
    start: u16,
}

/// How long an exchange transmits, and from when to when it listens, after its start.
#[inline]
fn exchange(a: &Ask) -> (u32, u32, u32) {
    let sent = if a.request.uf >= 20 { 135 } else { 79 };
    let reply = if a.request.rr >= 16 { 480 } else { 256 };
    (sent, 19 + 512 - 1 + a.near as u32, 19 + 512 + 1 + a.far as u32 + reply)
}

/// When a placed exchange starts, ends its transmission, opens its window and ends, and with which aircraft it is.
#[derive(Clone, Copy)]
struct Taken {
    at: u32,
    sent: u32,
    open: u32,
    end: u32,
    address: u32,
}

fn taken(e: &Entry) -> Taken {
    let (sent, from, to) = exchange(&e.ask);
    let at = e.start as u32;
    Taken { at, sent: at + sent, open: at + from, end: at + to, address: e.ask.request.address }
}

/// One pass over the waiting list, with a way to look for a place. The intervals of what is placed are reckoned once.
fn pass(limits: &[u8; 8], placed: &mut Vec<Entry>, waiting: &mut Vec<Ask>, place: &mut impl FnMut(&Ask, &[Entry], &[Taken]) -> Option<u32>) {
    let mut counts = [0u8; 8];
    let mut times: Vec<Taken> = Vec::with_capacity(128);
    times.extend(placed.iter().map(taken));
    for e in placed.iter() {
        counts[e.ask.request.unit as usize] += 1;
    }
    let mut kept = 0;
    for i in 0..waiting.len() {
        let a = waiting[i];
        let unit = a.request.unit as usize;
        if counts[unit] < limits[unit] {
            if let Some(t) = place(&a, placed, &times) {
                let e = Entry { ask: a, start: t as u16 };
                placed.push(e);
                times.push(taken(&e));
                counts[unit] += 1;
                continue;
            }
        }
        waiting[kept] = a;
        kept += 1;
    }
    waiting.truncate(kept);
}

fn plan(job: &PlanJob, placed: &mut Vec<Entry>, waiting: &mut Vec<Ask>, mut place: impl FnMut(&Ask, &[Entry], &[Taken]) -> Option<u32>) {
    placed.clear();
    waiting.clear();
    waiting.extend_from_slice(&job.asks.list[..job.asks.n]);
    for u in 0..8 {
        let mut alone = [0u8; 8];
        alone[u] = job.setup.guarantee[u];
        pass(&alone, placed, waiting, &mut place);
    }
    pass(&job.setup.ceiling, placed, waiting, &mut place);
}

#[inline]
fn past(t: u32, a: u32, b: u32, lo: u32, hi: u32) -> u32 {
    if t + b <= lo || hi <= t + a {
        t
    } else {
        hi - a
    }
}

#[inline]
fn nudge(t: u32, (sent, from, to): (u32, u32, u32), address: u32, e: &Taken) -> u32 {
    if e.end <= t || t + to <= e.at {
        return t;
    }
    let t = past(t, 0, sent, e.at, e.sent);
    let t = past(t, 0, sent, e.open, e.end);
    let t = past(t, from, to, e.at, e.sent);
    let t = past(t, from, to, e.open, e.end);
    if address == e.address {
        past(t, 0, to, e.at, e.end)
    } else {
        t
    }
}

/// The same method: rounds over the entries, each step going past what is in the way. `step` is told of each.
#[inline]
fn jump(period: u32, a: &Ask, entries: &[Taken], mut step: impl FnMut(bool)) -> Option<u32> {
    let own = exchange(a);
    let to = own.2;
    if period < to {
        return None;
    }
    let last = period - to;
    let (mut from, mut t, mut i) = (0, 0, 0);
    while t <= last {
        if i < entries.len() {
            let r = nudge(t, own, a.request.address, &entries[i]);
            step(r != t);
            t = r;
            i += 1;
            continue;
        }
        if t == from {
            return Some(t);
        }
        from = t;
        i = 0;
    }
    None
}

fn apart(a: (u32, u32), b: (u32, u32)) -> bool {
    a.1 <= b.0 || b.1 <= a.0
}

/// The definition read literally: every start, every entry, every interval.
fn scan(period: u32, a: &Ask, entries: &[Entry]) -> Option<u32> {
    let (sent, from, to) = exchange(a);
    (0..=period).find(|&t| {
        t + to <= period
            && entries.iter().all(|e| {
                let (s, f, w) = exchange(&e.ask);
                let at = e.start as u32;
                let mine = [(t, t + sent), (t + from, t + to)];
                let its = [(at, at + s), (at + f, at + w)];
                mine.iter().all(|&m| its.iter().all(|&i| apart(m, i)))
                    && (a.request.address != e.ask.request.address || apart((t, t + to), (at, at + w)))
            })
    })
}

struct Rng(u64);

impl Rng {
    fn below(&mut self, n: u64) -> u64 {
        self.0 ^= self.0 << 13;
        self.0 ^= self.0 >> 7;
        self.0 ^= self.0 << 17;
        self.0 % n
    }

    fn pick<T: Copy>(&mut self, of: &[T]) -> T {
        of[self.below(of.len() as u64) as usize]
    }
}

fn ask(rng: &mut Rng, unit: u8, number: u64, reach: u16) -> Ask {
    let near = rng.below(reach as u64 + 1) as u16;
    let room = (reach - near).min(rng.pick(&[0, 4, 40, 400])) as u64;
    Ask {
        request: Request { unit, address: 1 + rng.below(64) as u32, uf: rng.pick(&[4, 5, 20, 21]), rr: rng.below(32) as u8, ma: number, ..Default::default() },
        near,
        far: near + rng.below(room + 1) as u16,
    }
}

/// Sixteen requests of each unit in a random order, a random reach, and random guarantees that fit.
fn random_case(rng: &mut Rng) -> PlanJob {
    let reach = rng.pick(&[0u16, 200, 1000, 3000, 6000, 13000]);
    let mut guarantee = [0u8; 8];
    for _ in 0..rng.below(128) {
        let mut more = guarantee;
        more[rng.below(8) as usize] += 1;
        let sum: u32 = more.iter().map(|&g| g as u32).sum();
        if more.iter().all(|&g| g <= 16) && sum * (1012 + reach as u32) <= 65535 {
            guarantee = more;
        }
    }
    let mut units: Vec<u8> = (0..128).map(|i| i / 16).collect();
    for i in (1..128).rev() {
        units.swap(i, rng.below(i as u64 + 1) as usize);
    }
    let mut list = [Ask::default(); 128];
    for i in 0..128 {
        list[i] = ask(rng, units[i], i as u64, reach);
    }
    PlanJob { setup: Setup { period: 65535, reach, limit: 5, guarantee, ceiling: [16; 8] }, asks: Asks { list, n: 128 } }
}

/// What the same method takes without a clock: its steps, a jump counting for so many.
fn cost(job: &PlanJob, jump_counts: u64) -> u64 {
    let (mut placed, mut waiting) = (Vec::with_capacity(128), Vec::with_capacity(128));
    let mut steps = 0u64;
    plan(job, &mut placed, &mut waiting, |a, _, es| jump(job.setup.period as u32, a, es, |moved| steps += if moved { jump_counts } else { 1 }));
    steps
}

/// A case that is worse than its neighbours.
fn climb(rng: &mut Rng, tries: u32) -> PlanJob {
    let mut best = random_case(rng);
    let mut most = cost(&best, 3);
    for _ in 0..tries {
        let mut next = best;
        for _ in 0..1 + rng.below(4) {
            let i = rng.below(128) as usize;
            let j = rng.below(128) as usize;
            match rng.below(4) {
                0 => next.asks.list.swap(i, j),
                1 => next.asks.list[i] = Ask { request: Request { unit: next.asks.list[i].request.unit, ma: i as u64, ..next.asks.list[j].request }, ..next.asks.list[j] },
                2 => next.asks.list[i].request.address = next.asks.list[j].request.address,
                _ => next.asks.list[i] = ask(rng, next.asks.list[i].request.unit, i as u64, next.setup.reach),
            }
        }
        for (k, a) in next.asks.list.iter_mut().enumerate() {
            a.request.ma = k as u64;
        }
        let c = cost(&next, 3);
        if c >= most {
            most = c;
            best = next;
        }
    }
    best
}

fn seconds(f: impl FnOnce()) -> f64 {
    let t = Instant::now();
    f();
    t.elapsed().as_secs_f64()
}

/// The least time of each version over some runs, in milliseconds, after the plans were compared.
fn timed(job: &PlanJob, runs: usize) -> (f64, f64) {
    let (mut placed, mut waiting) = (Vec::with_capacity(128), Vec::with_capacity(128));
    let (mut proved, mut rust) = (f64::MAX, f64::MAX);
    let mut rows = unsafe { jerungkal_plan(*job) };
    for _ in 0..runs {
        proved = proved.min(seconds(|| rows = unsafe { jerungkal_plan(*job) }));
        rust = rust.min(seconds(|| plan(job, &mut placed, &mut waiting, |a, _, es| jump(job.setup.period as u32, a, es, |_| ()))));
    }
    assert_eq!((rows.placed, rows.waiting), (placed.len(), waiting.len()));
    for (i, e) in placed.iter().enumerate() {
        assert_eq!((rows.starts[i], rows.numbers[i]), (e.start, e.ask.request.ma));
    }
    (proved * 1e3, rust * 1e3)
}

/// The literal version's time, in milliseconds, after its plan was compared.
fn scanned(job: &PlanJob) -> f64 {
    let (mut placed, mut waiting) = (Vec::with_capacity(128), Vec::with_capacity(128));
    let ms = 1e3 * seconds(|| plan(job, &mut placed, &mut waiting, |a, es, _| scan(job.setup.period as u32, a, es)));
    let rows = unsafe { jerungkal_plan(*job) };
    assert_eq!(rows.placed, placed.len());
    for (i, e) in placed.iter().enumerate() {
        assert_eq!((rows.starts[i], rows.numbers[i]), (e.start, e.ask.request.ma));
    }
    ms
}

fn report(name: &str, times: &[(f64, f64)]) {
    let n = times.len() as f64;
    let proved: f64 = times.iter().map(|t| t.0).sum();
    let rust: f64 = times.iter().map(|t| t.1).sum();
    let worst = times.iter().fold(0.0f64, |w, t| w.max(t.0));
    println!("{name}: {} cases, proved {:.3} ms, same method in Rust {:.3} ms, ratio {:.3}, worst {:.3} ms", times.len(), proved / n, rust / n, proved / rust, worst);
}

fn main() {
    let mut rng = Rng(0x9E37_79B9_7F4A_7C15);
    let cases: Vec<PlanJob> = (0..300).map(|_| random_case(&mut rng)).collect();
    report("random", &cases.iter().map(|c| timed(c, 15)).collect::<Vec<_>>());

    let found: Vec<PlanJob> = (0..8).map(|_| climb(&mut rng, 4000)).collect();
    let times: Vec<(f64, f64)> = found.iter().map(|c| timed(c, 25)).collect();
    report("found by search", &times);
    let steps: Vec<u64> = found.iter().map(|c| cost(c, 1)).collect();
    let step = times.iter().map(|t| t.0).sum::<f64>() * 1e6 / steps.iter().sum::<u64>() as f64;
    println!("steps: at most {} found, of 3462528 on paper; {:.1} ns a step, so {:.1} ms on paper", steps.iter().max().unwrap(), step, step * 3.462528);

    let literal: Vec<f64> = cases.iter().take(6).chain(found.iter().take(2)).map(scanned).collect();
    println!("every start tried: {} cases, {:.0} ms, worst {:.0} ms", literal.len(), literal.iter().sum::<f64>() / literal.len() as f64, literal.iter().fold(0.0f64, |w, &t| w.max(t)));
}
