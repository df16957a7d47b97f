//! `fx_log2` over every positive finite `f32`: the largest part |2^r / x - 1|, which 01 bounds by 1 / 131,072, the largest error
//! of the logarithm, whether a guess ever fails its test, and the time of a call beside the platform's.
use std::hint::black_box;

extern "C" {
    fn fx_log2(x: f32) -> f32;
    fn clock() -> std::ffi::c_long;
}

/// Processor time in nanoseconds, so that other programs do not count.
fn now() -> f64 {
    unsafe { clock() as f64 * 1000.0 }
}

fn log2(x: f32) -> f32 {
    unsafe { fx_log2(x) }
}

/// The port's kernel and its guess, operation by operation.
fn series(r: f64) -> f64 {
    const C: [f64; 13] = [
        1.0,
        0.6931471805599453,
        0.24022650695910072,
        0.05550410866482158,
        0.009618129107628477,
        0.0013333558146428443,
        0.0001540353039338161,
        0.000015252733804059840,
        0.0000013215486790144310,
        0.0000001017808600923970,
        0.0000000070549116208011234,
        0.00000000044455382718708117,
        0.000000000025678435993488206,
    ];
    C[..12].iter().rev().fold(C[12], |p, c| c + r * p)
}

fn guess(m: f64) -> u64 {
    const C: [f64; 7] = [
        2.8853900817779268,
        0.9617966939259756,
        0.5770780163555853,
        0.4121985831111324,
        0.3205988979753252,
        0.2623081892525388,
        0.22195308321368667,
    ];
    let one = if m < 1.4142135623730951 { 1.0 } else { 2.0 };
    let s = (m - one) / (m + one);
    let z = s * s;
    let sum = C[..6].iter().rev().fold(C[6], |p, c| c + z * p);
    let y = s * sum + (one + 127.0);
    let k = y.to_bits().wrapping_sub(128f64.to_bits());
    if k < 1 << 45 {
        k
    } else {
        0
    }
}

const UNIT: f64 = (1u64 << 45) as f64;

fn passes(m: f64, k: u64) -> bool {
    const F: f64 = 1.0000000149011612;
    let v = series(k as f64 / UNIT);
    v <= m * F && m <= v * F
}

fn main() {
    if std::env::args().any(|a| a == "time") {
        return times();
    }
    // Each mantissa of an f32, by the replica: the guess and its test.
    let (mut failed, mut error) = (0u32, 0f64);
    let ks: Vec<u64> = (0..1u32 << 23)
        .map(|t| {
            let m = f32::from_bits(0x3f80_0000 | t) as f64;
            let k = guess(m);
            failed += !passes(m, k) as u32;
            error = error.max((k as f64 / UNIT - m.log2()).abs());
            k
        })
        .collect();
    println!("of 8388608 mantissas, guesses that fail their test: {failed}; largest error of a guess: {error:.2e}");

    // Each positive finite f32, by the port.
    let mut other = 0u64;
    let (mut part, mut part_at, mut abs, mut abs_at) = (0f64, 0f32, 0f64, 0f32);
    let (mut ulps, mut ulps_at, mut away) = (0f64, 0f32, 0u64);
    let mut powers = 0;
    for b in 1..0x7f80_0000u32 {
        let x = f32::from_bits(b);
        let r = log2(x);
        let wide = (x as f64).to_bits();
        let n = (wide >> 52) as i64 - 1023;
        let t = ((wide >> 29) & 0x7f_ffff) as usize;
        let y = (n * (1 << 45) + ks[t] as i64) as f64 / UNIT;
        other += (r.to_bits() != (y as f32).to_bits()) as u64;
        if t == 0 {
            powers += (r == n as f32) as u32;
        }
        let exact = (x as f64).log2();
        let e = (r as f64 - exact).abs();
        if e > abs {
            (abs, abs_at) = (e, x);
        }
        let p = ((r as f64 - exact) * std::f64::consts::LN_2).exp_m1().abs();
        if p > part {
            (part, part_at) = (p, x);
        }
        let nearest = exact as f32;
        if nearest != r {
            away += 1;
            let ulp = (f32::from_bits((nearest.abs()).to_bits() + 1) - nearest.abs()) as f64;
            let u = e / ulp;
            if u > ulps {
                (ulps, ulps_at) = (u, x);
            }
        }
    }
    println!("of {} numbers, results other than the replica's: {other}; powers of two exact: {powers} of 277", 0x7f80_0000u32 - 1);
    println!("largest |2^r / x - 1|: {part:.4e} at {part_at:e}, {:.4} of 1 / 131072", part * 131072.0);
    println!("largest |r - log2 x|: {abs:.4e} at {abs_at:e}");
    println!("results that are not the nearest single: {away}; the farthest {ulps:.3} units of the last place, at {ulps_at:e}");

    // The arguments that are no positive number.
    for x in [0.0f32, -0.0, -1.0, -1e-45, f32::INFINITY, f32::NEG_INFINITY, f32::NAN] {
        println!("log2 of {x:?}: {:?}", log2(x));
    }
    times();
}

/// Independent calls, and calls each of which waits on the last.
fn times() {
    let xs: Vec<f32> = (0..4096u32).map(|i| f32::from_bits(0x3a00_0000 + i.wrapping_mul(0x0001_2345) % 0x0c00_0000)).collect();
    time("port", &xs, log2);
    time("platform", &xs, |x| x.log2());
}

fn time(name: &str, xs: &[f32], f: impl Fn(f32) -> f32) {
    let rounds = 2000;
    let n = (rounds * xs.len()) as f64;
    let start = now();
    for _ in 0..rounds {
        for &x in xs {
            black_box(f(black_box(x)));
        }
    }
    let apart = (now() - start) / n;
    let start = now();
    let mut wait = 0f32;
    for _ in 0..rounds {
        for &x in xs {
            wait = f(x + wait * 0.0);
        }
    }
    black_box(wait);
    println!("{name}: {apart:.1} ns a call, {:.1} ns where each waits on the last", (now() - start) / n);
}
