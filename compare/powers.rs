//! The largest relative error of the port's exp2, exp, pow10 and sinh against the real functions in f64, over the singles of
//! their ranges (every single from 2^-26 up in size, each 997th below), the special values, and the time for a call.
use std::hint::black_box;
use std::time::Instant;

extern "C" {
    fn fx_exp2(x: f32) -> f32;
    fn fx_exp(x: f32) -> f32;
    fn fx_pow10(x: f32) -> f32;
    fn fx_sinh(x: f32) -> f32;
}

struct Case {
    name: &'static str,
    port: fn(f32) -> f32,
    real: fn(f64) -> f64,
    rust: fn(f32) -> f32,
    least: f32, // the first and the last argument whose figure is within 2^-126 to 2^127
    most: f32,
    below: f32, // the result for arguments below the first
}

fn cases() -> [Case; 4] {
    [
        Case { name: "exp2", port: |x| unsafe { fx_exp2(x) }, real: |x| x.exp2(), rust: |x| x.exp2(), least: -126.0, most: 127.0, below: 0.0 },
        Case { name: "exp", port: |x| unsafe { fx_exp(x) }, real: |x| x.exp(), rust: |x| x.exp(), least: -87.33654, most: 88.029686, below: 0.0 },
        Case { name: "pow10", port: |x| unsafe { fx_pow10(x) }, real: |x| 10f64.powf(x), rust: |x| 10f32.powf(x), least: -37.92978, most: 38.23081, below: 0.0 },
        Case { name: "sinh", port: |x| unsafe { fx_sinh(x) }, real: |x| x.sinh(), rust: |x| x.sinh(), least: 0.00024414063, most: 88.72283, below: f32::NAN },
    ]
}

fn up(x: f32) -> f32 {
    if x >= 0.0 { f32::from_bits(x.to_bits() + 1) } else { f32::from_bits(x.to_bits() - 1) }
}

fn down(x: f32) -> f32 {
    -up(-x)
}

fn same(x: f32, y: f32) -> bool {
    x.to_bits() == y.to_bits() || x.is_nan() && y.is_nan()
}

fn special(c: &Case) {
    let mut bad = 0;
    let mut want = |x: f32, r: f32| {
        if !same((c.port)(x), r) {
            println!("{}: {x} gives {} and not {r}", c.name, (c.port)(x));
            bad += 1;
        }
    };
    want(f32::NAN, f32::NAN);
    want(f32::NEG_INFINITY, c.below);
    want(f32::INFINITY, f32::INFINITY);
    want(down(c.least), c.below);
    want(up(c.most), f32::INFINITY);
    want(f32::MAX, f32::INFINITY);
    want(-f32::MAX, c.below);
    if c.least < 0.0 {
        want(0.0, 1.0);
        want(-0.0, 1.0);
        want(f32::from_bits(1), 1.0);
    } else {
        want(0.0, f32::NAN);
        want(-0.0, f32::NAN);
        want(-1.0, f32::NAN);
    }
    for x in [c.least, c.most] {
        let r = (c.port)(x);
        if !r.is_finite() || r == 0.0 {
            println!("{}: {x} is within the range and gives {r}", c.name);
            bad += 1;
        }
    }
    let lo = (c.real)(down(c.least) as f64);
    let hi = (c.real)(up(c.most) as f64);
    println!("{:6} specials wrong: {bad}; one single outside the ends the figure is {lo:.9e} and {hi:.9e}; at the ends {:e} and {:e}", c.name, (c.port)(c.least), (c.port)(c.most));
}

fn errors(c: &Case) {
    let (mut worst, mut at, mut count, mut nearest) = (0f64, 0f32, 0u64, 0u64);
    let mut platform = 0f64;
    let mut look = |x: f32| {
        let q = (c.real)(x as f64);
        let r = (c.port)(x);
        let e = ((r as f64 - q) / q).abs();
        count += 1;
        if !(e <= worst) {
            worst = e;
            at = x;
        }
        if r == q as f32 {
            nearest += 1;
        }
        let p = (((c.rust)(x) as f64 - q) / q).abs();
        if p > platform {
            platform = p;
        }
    };
    for sign in [0u32, 1 << 31] {
        let end = if sign == 0 { c.most } else { -c.least };
        if end < 0.0 {
            continue;
        }
        let start = if c.least > 0.0 { c.least.to_bits() } else { 0 };
        let dense = 0x3280_0000; // 2^-26
        let mut b = start;
        while b <= end.to_bits() {
            look(f32::from_bits(b | sign));
            b += if b < dense { 997 } else { 1 };
        }
    }
    println!("{:6} {count:11} arguments: largest relative error {worst:.4e} = 2^{:.3} at {at:e} (allowed 2^-22); nearest single {:.4} %; platform's f32 2^{:.3}", c.name, worst.log2(), 100.0 * nearest as f64 / count as f64, platform.log2());
}

fn time(f: impl Fn(f32) -> f32, least: f32, most: f32) -> f64 {
    let n = 20_000u32; // short runs, the best of many, so that other work on the machine does not count
    let mut best = f64::MAX;
    for _ in 0..400 {
        let t = Instant::now();
        let mut sum = 0f32;
        for i in 0..n {
            let x = least + (most - least) * ((i.wrapping_mul(2654435761) >> 8) as f32 / 16777216.0);
            sum += f(black_box(x));
        }
        black_box(sum);
        best = best.min(t.elapsed().as_secs_f64() * 1e9 / n as f64);
    }
    best
}

/// Arguments and results as bits, for verify.py: the ends and their neighbours, then singles by chance
fn pairs(cases: &[Case]) {
    let mut state = 1u64;
    for c in cases {
        let show = |x: f32| println!("{} {:08x} {:08x}", c.name, x.to_bits(), (c.port)(x).to_bits());
        for x in [c.least, c.most, 0.0, -0.0, f32::NAN, f32::INFINITY, f32::NEG_INFINITY, f32::MIN_POSITIVE] {
            for y in [x, up(x), down(x)] {
                show(y);
            }
        }
        for _ in 0..5000 {
            state = state.wrapping_mul(6364136223846793005).wrapping_add(1442695040888963407);
            let t = (state >> 40) as f32 / 16777216.0;
            show(c.least * 1.01 + (c.most - c.least) * 1.02 * t);
            // any bits of a size up to 2^7
            let b = (state >> 32) as u32;
            show(f32::from_bits(b & 0x8000_0000 | (b & 0x7fff_ffff) % 0x4300_0000));
        }
    }
}

fn main() {
    let cases = cases();
    let mode = std::env::args().nth(1);
    if mode.as_deref() == Some("pairs") {
        return pairs(&cases);
    }
    for c in &cases {
        special(c);
    }
    for c in &cases {
        // arguments of both signs at random, then of one sign
        for (kind, least) in [("any", c.least), ("positive", c.least.max(0.001))] {
            let own = time(c.port, least, c.most);
            let platform = time(c.rust, least, c.most);
            let loop_only = time(|x| x, least, c.most);
            println!("{:6} ns a call, {kind:8}: port {:.1}, platform {:.1}", c.name, own - loop_only, platform - loop_only);
        }
    }
    if mode.as_deref() == Some("times") {
        return;
    }
    for c in &cases {
        errors(c);
    }
}
