//! The proved kernels and filters beside the Rust: same inputs, every bit, and the time of each.
#![allow(dead_code, improper_ctypes)]
extern crate alloc;
include!(concat!(env!("OUT_DIR"), "/mods.rs"));
use filters::{FilterShape, FilterSlot};
use sampler::interp::{self, Interp, SincSpan, SincTable};
use sampler::pcm::PCM_PAD;
use std::hint::black_box;

unsafe extern "C" {
    fn k_read_pair(kind: u8, a: &[f32], b: &[f32], stereo: bool, p: f64, table: &[f32], fc: f32, half: u16, out: &mut [f32]) -> u8;
    fn k_run(kind: u8, a: &[f32], b: &[f32], stereo: bool, start: f64, step: f64, table: &[f32], fc: f32, half: u16, l: &mut [f32], r: &mut [f32]) -> u8;
    fn k_span(step: f64, out: &mut u16) -> f32;
    fn k_filter(kind: u8, b0: f32, b1: f32, b2: f32, a1: f32, a2: f32, stages: u8, base: usize, states: &mut [f32; 72], x: &mut [f32]) -> u8;
    fn k_two(kind: u8, b0: f32, b1: f32, b2: f32, a1: f32, a2: f32, stages: u8, stereo: bool, states: &mut [f32; 72], l: &mut [f32], r: &mut [f32]) -> u8;
    fn k_wrap(p: f64, start: u32, end: u32) -> f64;
    fn clock_gettime(c: i32, t: *mut [i64; 2]) -> i32;
}

fn now() -> f64 {
    let mut t = [0i64; 2];
    unsafe { clock_gettime(3, &mut t) };
    t[0] as f64 * 1e9 + t[1] as f64
}

struct Rng(u64);
impl Rng {
    fn next(&mut self) -> u64 {
        self.0 = self.0.wrapping_add(0x9E37_79B9_7F4A_7C15);
        let mut z = self.0;
        z = (z ^ (z >> 30)).wrapping_mul(0xBF58_476D_1CE4_E5B9);
        z = (z ^ (z >> 27)).wrapping_mul(0x94D0_49BB_1331_11EB);
        z ^ (z >> 31)
    }
    fn below(&mut self, n: u64) -> u64 { self.next() % n }
    fn unit(&mut self) -> f64 { (self.next() >> 11) as f64 / (1u64 << 53) as f64 }
    fn sample(&mut self) -> f32 {
        match self.below(40) {
            0 => 0.0,
            1 => -0.0,
            2 => f32::from_bits(self.below(0x0080_0000) as u32),
            3 => f32::from_bits(self.next() as u32),
            _ => (self.unit() * 2.0 - 1.0) as f32,
        }
    }
}
fn same(a: f32, b: f32) -> bool { a.to_bits() == b.to_bits() || (a.is_nan() && b.is_nan()) }
fn padded(x: &[f32]) -> Vec<f32> {
    let mut v = vec![0.0; x.len() + 2 * PCM_PAD];
    v[PCM_PAD..PCM_PAD + x.len()].copy_from_slice(x);
    v
}
fn kinds(k: u8) -> Interp { match k { 0 => Interp::Linear, 1 => Interp::Hermite, _ => Interp::Sinc } }

fn step_of(g: &mut Rng) -> f64 {
    match g.below(8) {
        0 => 1.0,
        1 => g.unit(),
        2 => 1.0 + g.unit() * 1e-6,
        3 => g.below(4096) as f64 + 1.0,
        4 => 4096.0 * g.unit(),
        5 => f64::from_bits(g.next()) % 4096.0,
        6 => [1.0, 2.0, 4.0, 4096.0, 0.0, f64::MIN_POSITIVE, 1.0 + f64::EPSILON, 1.1363636363636365][g.below(8) as usize],
        _ => 1.0 + g.unit() * 3.0,
    }
}
fn pos_of(g: &mut Rng, n: usize) -> f64 {
    let e = n as f64;
    let p = match g.below(7) {
        0 => g.unit() * 45.0,
        1 => e - g.unit() * 45.0,
        2 => g.below(n as u64 + 1) as f64,
        3 => (g.below(n as u64 + 1) as f64) + g.unit() * 1e-9,
        4 => (g.below(n as u64 + 1) as f64) + 1.0 - f64::EPSILON * g.below(1 << 20) as f64,
        5 => g.below(1 << 20) as f64 * g.unit() * 1e-12,
        _ => g.unit() * e,
    };
    p.clamp(0.0, e)
}

fn reads(count: u64) -> (u64, u64) {
    let mut g = Rng(7);
    let own = SincTable::new();
    let mut bad = 0u64;
    let mut done = 0u64;
    let mut by = [0u64; 3];
    while done < count {
        let n = 1 + match g.below(3) { 0 => g.below(8), 1 => g.below(200), _ => g.below(4000) } as usize;
        let a: Vec<f32> = (0..n).map(|_| g.sample()).collect();
        let b: Vec<f32> = (0..n).map(|_| g.sample()).collect();
        let (pa, pb) = (padded(&a), padded(&b));
        let noise = SincTable::from_vec((0..8194).map(|_| (g.unit() * 2.0 - 1.0) as f32).collect());
        let zeros = SincTable::from_vec(vec![0.0; 8194]);
        for _ in 0..2000 {
            let table = match g.below(10) { 0 => &noise, 1 => &zeros, _ => &own };
            let step = step_of(&mut g);
            let span = SincSpan::for_step(step);
            let (fc, half) = span.parts();
            let mut h = 0u16;
            let c = unsafe { k_span(step, &mut h) };
            if !same(c, fc) || h as usize != half { bad += 1; println!("span {step:?} {c} {h} / {fc} {half}"); }
            for _ in 0..6 {
                let p = pos_of(&mut g, n);
                let k = g.below(4).min(2) as u8;
                let stereo = g.below(2) == 1;
                let (l, r) = interp::read_pair(kinds(k), &pa, stereo.then_some(&pb[..]), p, table, span);
                let mut o = [0.0f32; 2];
                let ok = unsafe { k_read_pair(k, &a, &b, stereo, p, table.values(), fc, h, &mut o) };
                done += 1;
                by[k as usize] += 1;
                if ok != 1 || !same(o[0], l) || !same(o[1], r) {
                    bad += 1;
                    if bad < 10 { println!("read kind {k} n {n} p {p:?} step {step:?}: {:?} / {l} {r}", o); }
                }
            }
        }
    }
    println!("reads: {done} ({} linear, {} hermite, {} sinc), different: {bad}", by[0], by[1], by[2]);
    (done, bad)
}

fn spans() {
    // every single from 1 to 4,096 would be 100 million: each 37th, and doubles between
    let mut bad = 0u64;
    let mut n = 0u64;
    let mut b = 1.0f32.to_bits();
    while f32::from_bits(b) <= 4096.0 {
        for s in [f32::from_bits(b) as f64, f32::from_bits(b) as f64 * (1.0 + 3e-9)] {
            let (fc, half) = SincSpan::for_step(s).parts();
            let mut h = 0u16;
            let c = unsafe { k_span(s, &mut h) };
            n += 1;
            if !same(c, fc) || h as usize != half { bad += 1; }
        }
        b += 37;
    }
    for s in [f64::NAN, f64::INFINITY, f64::NEG_INFINITY, -1.0, 1e300, 3.4028236e38, 1e-300] {
        let (fc, half) = SincSpan::for_step(s).parts();
        let mut h = 0u16;
        let c = unsafe { k_span(s, &mut h) };
        n += 1;
        if !same(c, fc) || h as usize != half { bad += 1; println!("span {s}"); }
    }
    println!("spans: {n}, different: {bad}");
}

fn filter_runs(runs: u64) {
    let mut g = Rng(99);
    let mut bad = 0u64;
    let mut frames = 0u64;
    for _ in 0..runs {
        let kind = g.below(4) as u8;
        let stages = 1 + g.below(3) as u8;
        let big = g.below(10) == 0;
        let mut c = [0.0f32; 5];
        for v in c.iter_mut() { *v = if big { g.sample() } else { ((g.unit() * 2.0 - 1.0) * 1.2) as f32 }; }
        if !big && kind == 3 { c[4] = (g.unit() * 0.9) as f32; c[3] = ((g.unit() * 2.0 - 1.0) * (1.0 + c[4] as f64)) as f32; }
        let slot = g.below(6) as usize;
        let mut s = FilterSlot::OFF;
        s.shape = match kind { 0 => FilterShape::Off, 1 => FilterShape::Lp1 { p: c[0] }, 2 => FilterShape::Hp1 { p: c[0] }, _ => FilterShape::Biquad { c, stages } };
        let mut st = [0.0f32; 72];
        for ch in 0..2usize {
            for _ in 0..3 {
                let x: Vec<f32> = (0..64).map(|_| g.sample()).collect();
                let y: Vec<f32> = x.iter().map(|&v| s.tick(ch, v)).collect();
                let mut z = x.clone();
                let ok = unsafe { k_filter(kind, c[0], c[1], c[2], c[3], c[4], stages, 12 * slot + 6 * ch, &mut st, &mut z) };
                frames += 64;
                if ok != 1 { bad += 1; }
                for (p, q) in y.iter().zip(&z) { if !same(*p, *q) { bad += 1; } }
                let base = 12 * slot + 6 * ch;
                if kind == 1 || kind == 2 {
                    if !same(st[base], s.one_pole[ch].0) || !same(st[base + 1], s.one_pole[ch].1) { bad += 1; }
                }
                if kind == 3 {
                    for t in 0..stages as usize {
                        if !same(st[base + 2 * t], s.state[ch][t].z1) || !same(st[base + 2 * t + 1], s.state[ch][t].z2) { bad += 1; }
                    }
                }
            }
        }
    }
    println!("filter frames: {frames} in {} runs, different: {bad}", runs * 6);
}

fn wraps(count: u64) {
    let mut g = Rng(21);
    let mut bad = 0u64;
    for _ in 0..count {
        let len = 1 + match g.below(3) { 0 => g.below(4), 1 => g.below(1000), _ => g.below(1 << 20) } as u32;
        let start = match g.below(3) { 0 => 0, 1 => g.below(100) as u32, _ => g.below(1 << 31) as u32 };
        let end = start + len - 1;
        let size = (end + 1 - start) as f64;
        let turns = g.below(2000) as f64;
        let base = match g.below(3) { 0 => start as f64, 1 => end as f64, _ => g.unit() * end as f64 };
        let p = match g.below(20) { 0 => 0.0, 1 => -0.0, 2 => end as f64 + 1.0, _ => (base + turns * size + if g.below(2) == 0 { 0.0 } else { g.unit() }).min(8589934592.0) };
        let mut q = p;
        let mut n = 0u64;
        while q >= end as f64 + 1.0 && n < 4_000_000 { q -= size; n += 1; }
        if n >= 4_000_000 { continue; }
        let r = unsafe { k_wrap(p, start, end) };
        if r.to_bits() != q.to_bits() { bad += 1; if bad < 5 { println!("wrap {p:?} {start} {end}: {r:?} / {q:?}"); } }
    }
    let s = now();
    let mut x = 0.0;
    for i in 0..1_000_000u64 { x += unsafe { k_wrap(black_box(8589934592.0 - i as f64), 8, 8) }; }
    println!("wraps: {count}, different: {bad}; 2^33 positions in a loop of one frame: {:.1} ns each ({x})", (now() - s) / 1e6);
}

fn med(mut v: Vec<f64>) -> f64 { v.sort_by(|a, b| a.total_cmp(b)); v[v.len() / 2] }

fn bench(name: &str, k: u8, stereo: bool, step: f64) {
    let mut g = Rng(3);
    let n = 40_000usize;
    let a: Vec<f32> = (0..n).map(|_| (g.unit() * 2.0 - 1.0) as f32).collect();
    let b: Vec<f32> = (0..n).map(|_| (g.unit() * 2.0 - 1.0) as f32).collect();
    let (pa, pb) = (padded(&a), padded(&b));
    let t = SincTable::new();
    let span = SincSpan::for_step(step);
    let (fc, half) = span.parts();
    let m = 128usize;
    let blocks = if k == 2 { 60 } else { 200 };
    let (mut rs, mut ra) = (vec![], vec![]);
    let (mut l, mut r) = (vec![0.0f32; m], vec![0.0f32; m]);
    let (mut l2, mut r2) = (vec![0.0f32; m], vec![0.0f32; m]);
    for _ in 0..41 {
        let s = now();
        for i in 0..blocks {
            let mut p = black_box(100.25 + (i as f64) * step * m as f64);
            for j in 0..m {
                let (x, y) = interp::read_pair(kinds(k), &pa, stereo.then_some(&pb[..]), p, &t, span);
                l[j] = x;
                r[j] = y;
                p += step;
            }
            black_box((&l, &r));
        }
        rs.push((now() - s) / (blocks * m) as f64);
        let s = now();
        for i in 0..blocks {
            let p = black_box(100.25 + (i as f64) * step * m as f64);
            let ok = unsafe { k_run(k, &a, &b, stereo, p, step, t.values(), fc, half as u16, &mut l2, &mut r2) };
            assert!(ok == 1);
            black_box((&l2, &r2));
        }
        ra.push((now() - s) / (blocks * m) as f64);
        assert!(l.iter().zip(&l2).all(|(x, y)| same(*x, *y)) && r.iter().zip(&r2).all(|(x, y)| same(*x, *y)));
    }
    println!("{name:<28} rust {:7.2} ns  rattle {:7.2} ns  ratio {:.2}", med(rs.clone()), med(ra.clone()), med(ra) / med(rs));
}

fn bench_two() {
    let mut g = Rng(5);
    let c = [0.2f32, 0.4, 0.2, -0.3, 0.1];
    let m = 128usize;
    let (mut rs, mut ra) = (vec![], vec![]);
    for stereo in [false, true] {
        for _ in 0..41 {
            let x: Vec<f32> = (0..m).map(|_| (g.unit() * 2.0 - 1.0) as f32).collect();
            let mut slots = [FilterSlot::OFF; 6];
            for k in 0..2 { slots[k].shape = FilterShape::Biquad { c, stages: 1 }; }
            let (mut l, mut r) = (x.clone(), x.clone());
            let nf = black_box(2usize);
            let s = now();
            for _ in 0..200 {
                for j in 0..m {
                    let (mut u, mut v) = (l[j], r[j]);
                    for k in 0..nf {
                        u = slots[k].tick(0, u);
                        if stereo { v = slots[k].tick(1, v); }
                    }
                    l[j] = u;
                    r[j] = v;
                }
                black_box((&l, &r));
            }
            rs.push((now() - s) / (200 * m) as f64);
            let mut st = [0.0f32; 72];
            let (mut l2, mut r2) = (x.clone(), x.clone());
            let s = now();
            for _ in 0..200 {
                unsafe { k_two(3, c[0], c[1], c[2], c[3], c[4], 1, stereo, &mut st, &mut l2, &mut r2) };
                black_box((&l2, &r2));
            }
            ra.push((now() - s) / (200 * m) as f64);
            assert!(l.iter().zip(&l2).all(|(x, y)| same(*x, *y)) && r.iter().zip(&r2).all(|(x, y)| same(*x, *y)));
        }
        println!("two biquads {:<16} rust {:7.2} ns  rattle {:7.2} ns  ratio {:.2}", if stereo { "stereo" } else { "mono" }, med(rs.clone()), med(ra.clone()), med(ra.clone()) / med(rs.clone()));
        rs.clear();
        ra.clear();
    }
}

fn main() {
    let what = std::env::args().nth(1).unwrap_or("all".into());
    if what != "bench" {
        spans();
        reads(std::env::args().nth(2).and_then(|x| x.parse().ok()).unwrap_or(10_000_000));
        filter_runs(20_000);
        wraps(200_000);
    }
    bench("sinc stereo step 1.0227", 2, true, 1.0227);
    bench("sinc stereo step 4", 2, true, 4.0);
    bench("sinc mono step 1", 2, false, 1.0);
    bench("hermite mono step 1.0227", 1, false, 1.0227);
    bench("linear mono step 1.0227", 0, false, 1.0227);
    bench_two();
}
