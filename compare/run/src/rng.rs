//! SplitMix64, and the values that fields are drawn from.

pub struct Rng(pub u64);

pub fn splitmix(z: u64) -> u64 {
    let mut z = z.wrapping_add(0x9E37_79B9_7F4A_7C15);
    z = (z ^ (z >> 30)).wrapping_mul(0xBF58_476D_1CE4_E5B9);
    z = (z ^ (z >> 27)).wrapping_mul(0x94D0_49BB_1331_11EB);
    z ^ (z >> 31)
}

impl Rng {
    pub fn next(&mut self) -> u64 {
        let z = splitmix(self.0);
        self.0 = self.0.wrapping_add(0x9E37_79B9_7F4A_7C15);
        z
    }
    pub fn below(&mut self, n: u64) -> u64 { self.next() % n }
    pub fn between(&mut self, lo: u64, hi: u64) -> u64 { lo + self.below(hi - lo + 1) }
    pub fn percent(&mut self, p: u64) -> bool { self.below(100) < p }
    pub fn per_mille(&mut self, p: u64) -> bool { self.below(1000) < p }
    pub fn pick<T: Copy>(&mut self, from: &[T]) -> T { from[self.below(from.len() as u64) as usize] }
    pub fn real(&mut self, lo: f64, hi: f64) -> f32 { (lo + (hi - lo) * ((self.next() >> 11) as f64 / (1u64 << 53) as f64)) as f32 }
    /// An index, drawn by weight.
    pub fn weighted(&mut self, weights: &[u64]) -> usize {
        let mut k = self.below(weights.iter().sum());
        for (i, w) in weights.iter().enumerate() {
            if k < *w { return i; }
            k -= w;
        }
        unreachable!()
    }
    /// Any single, most of them strange.
    pub fn odd(&mut self) -> f32 {
        match self.below(6) {
            0 => f32::from_bits(self.next() as u32),
            1 => f32::from_bits(self.below(0x0080_0000) as u32 | (self.below(2) as u32) << 31),
            _ => self.pick(&[0.0, -0.0, 1.0, -1.0, f32::NAN, f32::INFINITY, f32::NEG_INFINITY, f32::MAX, f32::MIN, f32::MIN_POSITIVE, f32::from_bits(1), f32::from_bits(0x8000_0001), f32::from_bits(0xFF80_0001)]),
        }
    }
    pub fn odd_finite(&mut self) -> f32 {
        loop {
            let v = self.odd();
            if v.is_finite() { return v; }
        }
    }
    /// A usual value, rarely a strange finite one.
    pub fn or_odd(&mut self, usual: f32, odd_per_mille: u64) -> f32 { if self.per_mille(odd_per_mille) { self.odd_finite() } else { usual } }
}

pub fn hex(v: f32) -> String { format!("{:08X}", v.to_bits()) }
/// The single next above in size.
pub fn past(v: f32) -> f32 { f32::from_bits(v.to_bits() + 1) }

/// The frequency of a key, as the voice's note takes it.
pub fn key_freq(key: f64) -> f32 { (440.0 * 2f64.powf((key - 69.0) / 12.0)) as f32 }

/// A frequency for one of the keys: exact, detuned, half-way to the next, or strange.
pub fn freq(g: &mut Rng, keys: &[u8], odd_percent: u64) -> f32 {
    if g.percent(odd_percent) { return g.odd(); }
    let k = g.pick(keys) as f64;
    match g.below(10) {
        0 => key_freq(k + 0.5),
        1 => key_freq(k + g.real(-0.49, 0.49) as f64),
        2 => key_freq(g.below(128) as f64),
        _ => key_freq(k),
    }
}
/// A velocity input: whole, between, out of range or strange.
pub fn velocity(g: &mut Rng, odd_percent: u64) -> f32 {
    if g.percent(odd_percent) { return g.odd(); }
    match g.below(10) {
        0 => g.real(-0.2, 1.3),
        1 => 0.0,
        2 => 1.0,
        3 => (g.below(127) as f32 + 0.5) / 127.0,
        _ => g.below(128) as f32 / 127.0,
    }
}
/// A rate that a voice takes.
pub fn voice_rate(g: &mut Rng) -> f32 {
    match g.below(12) {
        0 => 192_000.0,
        1 => 96_000.0,
        2 => 48_000.0,
        3 | 4 => 44_100.0,
        5 => 22_050.0,
        6 => 11_025.0,
        7 => (g.between(8_000, 192_000)) as f32,
        8 => g.real(8_000.0, 20_000.0),
        _ => 8_000.0,
    }
}
/// Block offsets of one script: a common clock, or one that jumps and goes back.
pub struct Clock { kind: usize, now: u64 }
impl Clock {
    pub fn new(g: &mut Rng) -> Clock {
        let kind = g.weighted(&[50, 20, 12, 8, 10]);
        let now = match g.below(8) {
            0 => (1 << 63) - g.between(0, 3_000),
            1 => g.next() >> 1,
            2 => g.below(100_000),
            _ => 0,
        };
        Clock { kind, now }
    }
    /// The offset of the next block; a last one of the round moves the clock on.
    pub fn offset(&mut self, g: &mut Rng, frames: u64, last: bool) -> u64 {
        let t = self.now.min(1 << 63);
        match self.kind {
            0 => if last { self.now = self.now.saturating_add(frames) },
            1 => self.now = self.now.saturating_add(frames),
            2 => self.now = if g.percent(50) { self.now.saturating_sub(g.below(400)) } else { self.now.saturating_add(g.below(400)) },
            3 => self.now = g.pick(&[0, 1, 127, 128, 1 << 32, (1 << 63) - 1, 1 << 63, (1 << 24) + 1]),
            _ => if g.percent(80) { self.now = self.now.saturating_add(frames * g.between(1, 40)) },
        }
        t
    }
}
