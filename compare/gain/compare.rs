//! The port's gain and filter design beside the Rust: same parameters, every bit (one NaN).
use oracle::sampler::program::*;
use oracle::ugens::filters::coeffs_pub;
use oracle::ugens::sample_voice::*;

unsafe extern "C" {
    fn g_cents(c: f32) -> f32;
    fn g_velocity(track: f32, has: bool, curve: f32, vel: u8) -> f32;
    fn g_xf(in_lo: f32, in_hi: f32, out_lo: f32, out_hi: f32, gain_curve: bool, vel: u8) -> f32;
    fn g_pan(pan: f32, width: f32, stereo: bool, out: &mut [f32; 4]);
    fn f_coeffs(kind: u8, freq: f32, q: f32, db: f32, sr: f32, out: &mut [f32; 5]);
    #[allow(improper_ctypes)]
    fn f_build(words: &[u32], note: u8, vel: u8, sr: f32, out: &mut [f32; 42]) -> u8;
}

struct Rng(u64);
impl Rng {
    fn next(&mut self) -> u64 {
        self.0 = self.0.wrapping_add(0x9E37_79B9_7F4A_7C15);
        let mut z = self.0;
        z = (z ^ (z >> 30)).wrapping_mul(0xBF58_476D_1CE4_E5B9);
        z = (z ^ (z >> 27)).wrapping_mul(0x94D0_49BB_1331_11EB);
        z ^ (z >> 31)
    }
    fn below(&mut self, n: u64) -> u64 { self.next() % n }
    fn unit(&mut self) -> f32 { (self.next() >> 40) as f32 / (1u64 << 24) as f32 }
    /// lo to hi; now and then an end, a whole number, or any bits at all
    fn within(&mut self, lo: f32, hi: f32) -> f32 {
        match self.below(24) {
            0 => lo,
            1 => hi,
            2 => 0.0,
            3 => -0.0,
            4 => f32::from_bits(self.next() as u32),
            5 => [f32::NAN, f32::INFINITY, f32::NEG_INFINITY, f32::MIN_POSITIVE, f32::MAX, 1e-40][self.below(6) as usize],
            6..=10 => (lo + (hi - lo) * self.unit()).round(),
            _ => lo + (hi - lo) * self.unit(),
        }
    }
    fn finite(&mut self, lo: f32, hi: f32) -> f32 {
        let x = self.within(lo, hi);
        if x.is_finite() { x } else { lo }
    }
    fn rate(&mut self) -> f32 {
        match self.below(4) {
            0 => [8000.0, 22050.0, 44100.0, 48000.0, 96000.0, 192000.0][self.below(6) as usize],
            _ => 8000.0 + 184000.0 * self.unit(),
        }
    }
}
fn same(a: f32, b: f32) -> bool { a.to_bits() == b.to_bits() || (a.is_nan() && b.is_nan()) }

#[derive(Default)]
struct Tally { sets: u64, numbers: u64, nans: u64, differ: u64 }
impl Tally {
    fn one(&mut self, a: f32, b: f32, what: impl Fn() -> String) {
        self.numbers += 1;
        if a.is_nan() { self.nans += 1; }
        if !same(a, b) {
            self.differ += 1;
            if self.differ < 4 { println!("  differ: {} Rust {:08X} port {:08X}", what(), a.to_bits(), b.to_bits()); }
        }
    }
    fn end(&self, name: &str) { println!("{name}: {} parameter sets, {} numbers ({} NaN), {} differ", self.sets, self.numbers, self.nans, self.differ); }
}

fn kinds() -> [FilterKind; 13] {
    use FilterKind::*;
    [Lpf1p, Hpf1p, Lpf2p, Hpf2p, Bpf2p, Brf2p, Lpf4p, Hpf4p, Lpf6p, Hpf6p, Peq, Lsh, Hsh]
}
fn eq_kinds() -> [EqKind; 3] { [EqKind::Peak, EqKind::LowShelf, EqKind::HighShelf] }

fn main() {
    let n: u64 = std::env::args().nth(1).map_or(1_000_000, |s| s.parse().unwrap());
    // a second word spoils the last bit of one parameter of each function on the port's side, to see that the comparison can fail
    let spoil = std::env::args().nth(2).is_some();
    let s = |x: f32| if spoil && x.is_finite() { f32::from_bits(x.to_bits() ^ 1) } else { x };
    let mut g = Rng(20260115);
    let mut t = Tally::default();
    for _ in 0..n {
        let c = g.within(-20000.0, 20000.0);
        t.sets += 1;
        t.one(cents_factor_pub(c), unsafe { g_cents(s(c)) }, || format!("cents {c}"));
    }
    t.end("cents_factor");
    let mut t = Tally::default();
    for i in 0..n {
        let track = if i < 256 * 64 { (i / 256) as f32 * 6.25 - 200.0 } else { g.within(-200.0, 200.0) };
        let vel = if i < 256 * 64 { i as u8 } else { g.below(128) as u8 };
        let has = g.below(2) == 1;
        let curve = g.within(-1.0, 2.0);
        let r = Region { amp_veltrack: track, ..Default::default() };
        let table = [curve; 128];
        t.sets += 1;
        t.one(velocity_gain_pub(&r, has.then_some(&table[..]), vel), unsafe { g_velocity(s(track), has, curve, vel) }, || format!("track {track} curve {has} {curve} vel {vel}"));
    }
    t.end("velocity_gain");
    let mut t = Tally::default();
    for _ in 0..n {
        let x = VelCrossfade { in_lo: g.within(0.0, 128.0), in_hi: g.within(0.0, 128.0), out_lo: g.within(0.0, 128.0), out_hi: g.within(0.0, 128.0), gain_curve: g.below(2) == 1 };
        let vel = g.below(128) as u8;
        let r = Region { xf_vel: Some(x), ..Default::default() };
        t.sets += 1;
        t.one(xf_gain_pub(&r, vel), unsafe { g_xf(s(x.in_lo), x.in_hi, x.out_lo, x.out_hi, x.gain_curve, vel) }, || format!("{x:?} vel {vel}"));
    }
    t.end("xf_gain");
    let mut t = Tally::default();
    for i in 0..n {
        let whole = i < 2 * 201 * 201;
        let pan = if whole { (i / 2 % 201) as f32 - 100.0 } else { g.within(-110.0, 110.0) };
        let width = if whole { (i / 402) as f32 - 100.0 } else { g.within(-110.0, 110.0) };
        let stereo = if whole { i % 2 == 1 } else { g.below(2) == 1 };
        let r = Region { pan, width, ..Default::default() };
        let mut o = [0.0; 4];
        unsafe { g_pan(s(pan), width, stereo, &mut o) };
        t.sets += 1;
        for (a, b) in pan_matrix_pub(&r, stereo).into_iter().zip(o) { t.one(a, b, || format!("pan {pan} width {width} stereo {stereo}")); }
    }
    t.end("pan_matrix");
    for (k, name) in ["lpf", "hpf", "bpf", "notch", "peaking", "low_shelf", "high_shelf"].into_iter().enumerate() {
        let mut t = Tally::default();
        for _ in 0..n {
            let sr = if g.below(16) == 0 { g.within(0.0, 200000.0) } else { g.rate() };
            let freq = match g.below(4) { 0 => 0.499 * sr, 1 => g.within(1.0, 20000.0), _ => 0.5 * sr * g.unit() };
            let q = match g.below(4) { 0 => 0.001, 1 => 0.70710677, _ => g.within(0.0, 20.0) };
            let db = g.within(-60.0, 60.0);
            let mut o = [0.0; 5];
            unsafe { f_coeffs(k as u8, s(freq), q, db, sr, &mut o) };
            t.sets += 1;
            for (a, b) in coeffs_pub(k as u8, freq, q, db, sr).into_iter().zip(o) { t.one(a, b, || format!("{name} {freq} {q} {db} {sr}")); }
        }
        t.end(name);
    }
    let mut t = Tally::default();
    let mut seen = [0u64; 16];
    for _ in 0..n {
        let sr = g.rate();
        let (note, vel) = (g.below(128) as u8, g.below(128) as u8);
        let filters: Vec<Filter> = (0..g.below(7))
            .map(|_| Filter { kind: kinds()[g.below(13) as usize], cutoff: g.finite(20.0, 22000.0), resonance: g.finite(-30.0, 40.0), keytrack: g.finite(-1200.0, 1200.0), keycenter: g.below(128) as u8, veltrack: g.finite(-9600.0, 9600.0), gain: g.finite(-40.0, 40.0) })
            .collect();
        let eq: Vec<EqBand> = (0..g.below(7))
            .map(|_| EqBand { kind: eq_kinds()[g.below(3) as usize], freq: g.finite(0.0, 24000.0), bw: g.finite(0.001, 4.0), gain: g.finite(-40.0, 40.0), vel2freq: g.finite(-20000.0, 20000.0), vel2gain: g.finite(-40.0, 40.0) })
            .collect();
        let mut w = [0u32; 392];
        w[27] = filters.len() as u32;
        w[28] = eq.len() as u32;
        for (i, f) in filters.iter().enumerate() {
            seen[f.kind as usize] += 1;
            w[58 + 7 * i..65 + 7 * i].copy_from_slice(&[f.kind as u32, f.keycenter as u32, f.cutoff.to_bits(), f.resonance.to_bits(), f.keytrack.to_bits(), f.veltrack.to_bits(), f.gain.to_bits()]);
        }
        for (i, b) in eq.iter().enumerate() {
            seen[13 + b.kind as usize] += 1;
            w[100 + 6 * i..106 + 6 * i].copy_from_slice(&[b.kind as u32, b.freq.to_bits(), b.bw.to_bits(), b.gain.to_bits(), b.vel2freq.to_bits(), b.vel2gain.to_bits()]);
        }
        let r = Region { filters: filters.clone(), eq: eq.clone(), ..Default::default() };
        let (a, m) = build_filters_pub(&r, note, vel, sr);
        let mut o = [0.0; 42];
        let k = unsafe { f_build(&w, note, vel, s(sr), &mut o) };
        t.sets += 1;
        t.one(m as f32, k as f32, || "count".into());
        for i in 0..42 { t.one(a[i], o[i], || format!("place {i} of {filters:?} {eq:?} note {note} vel {vel} rate {sr}")); }
    }
    t.end("build_filters");
    println!("filters and bands by kind: {seen:?}");
}
