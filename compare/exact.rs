// Compares the port's exact numbers with Rust's own operators, bit for bit, and times both. Every NaN counts as one.
//
//     exact [MILLIONS]       patterns for each function of doubles, pairs, triples or 64-bit words (default 100);
//                            of the functions of one 32-bit word all 2^32 are tried, or each STRIDE-th, a second argument
//     exact time             nanoseconds a call, both behind a C call that is not inlined
//
// Ends with status 1 where any result differs.
use std::hint::black_box;
use std::time::Instant;

mod port {
    unsafe extern "C" {
        pub safe fn rt_narrow(x: f64) -> f32;
        pub safe fn rt_widen(x: f32) -> f64;
        pub safe fn rt_f32_to_u8(x: f32) -> u8;
        pub safe fn rt_f32_to_u32(x: f32) -> u32;
        pub safe fn rt_f32_to_usize(x: f32) -> usize;
        pub safe fn rt_f64_to_usize(x: f64) -> usize;
        pub safe fn rt_f32_to_i64(x: f32) -> i64;
        pub safe fn rt_u64_to_f32(n: u64) -> f32;
        pub safe fn rt_u64_to_f64(n: u64) -> f64;
        pub safe fn rt_u32_to_f32(n: u32) -> f32;
        pub safe fn rt_u32_to_f64(n: u32) -> f64;
        pub safe fn rt_i32_to_f32(n: i32) -> f32;
        pub safe fn rt_abs_f32(x: f32) -> f32;
        pub safe fn rt_max_f32(x: f32, y: f32) -> f32;
        pub safe fn rt_min_f32(x: f32, y: f32) -> f32;
        pub safe fn rt_clamp_f32(x: f32, lo: f32, hi: f32) -> f32;
        pub safe fn rt_is_finite_f32(x: f32) -> bool;
        pub safe fn rt_bits_f32(x: f32) -> u32;
        pub safe fn rt_from_bits_f32(b: u32) -> f32;
        pub safe fn rt_wrapping_mul_u64(a: u64, b: u64) -> u64;
        pub safe fn rt_splitmix64(z: u64) -> u64;
        pub safe fn rt_uniform(h: u64) -> f32;
        pub safe fn rt_rand01(seed: u32, serial: u64, salt: u64) -> f32;
        pub safe fn rt_trunc_f64(x: f64) -> f64;
        pub safe fn rt_floor_f64(x: f64) -> f64;
        pub safe fn rt_fract_f64(x: f64) -> f64;
        pub safe fn rt_ceil_f32(x: f32) -> f32;
        pub safe fn rt_round_f32(x: f32) -> f32;
        pub safe fn rt_sqrt_f32(x: f32) -> f32;
    }
}
use port::*;

// The test for a NaN is on the bits: the compiler may take one NaN for another.
fn bits(x: f32) -> u32 {
    let b = x.to_bits();
    if b & 0x7fff_ffff > 0x7f80_0000 { 0x7fc0_0000 } else { b }
}

fn bits64(x: f64) -> u64 {
    let b = x.to_bits();
    if b & 0x7fff_ffff_ffff_ffff > 0x7ff0_0000_0000_0000 { 0x7ff8_0000_0000_0000 } else { b }
}

// Of two zeros Rust leaves open which one it gives: the maximum is the plus one, the minimum the minus one.
fn max(x: f32, y: f32) -> f32 {
    if x == 0.0 && y == 0.0 { if x.is_sign_positive() { x } else { y } } else { x.max(y) }
}

fn min(x: f32, y: f32) -> f32 {
    if x == 0.0 && y == 0.0 { if x.is_sign_negative() { x } else { y } } else { x.min(y) }
}

// As sample_voice.rs has them.
fn splitmix64(mut z: u64) -> u64 {
    z = z.wrapping_add(0x9E37_79B9_7F4A_7C15);
    z = (z ^ (z >> 30)).wrapping_mul(0xBF58_476D_1CE4_E5B9);
    z = (z ^ (z >> 27)).wrapping_mul(0x94D0_49BB_1331_11EB);
    z ^ (z >> 31)
}

fn rand01(seed: u32, serial: u64, salt: u64) -> f32 {
    let h = splitmix64(splitmix64((seed as u64) << 32 ^ salt) ^ serial);
    (h >> 40) as f32 / (1u64 << 24) as f32
}

// A function's count of patterns and of differences, with the first that differs.
struct Tally {
    name: &'static str,
    tried: u64,
    differ: u64,
    first: String,
}

impl Tally {
    fn new(name: &'static str) -> Tally {
        Tally { name, tried: 0, differ: 0, first: String::new() }
    }

    #[inline(always)]
    fn hold(&mut self, got: u64, want: u64, at: impl Fn() -> String) {
        self.tried += 1;
        if got != want {
            if self.differ == 0 {
                self.first = format!("at {}: {got:x}, Rust {want:x}", at());
            }
            self.differ += 1;
        }
    }

    fn say(&self) -> bool {
        println!("{:<18}{:>12} patterns {:>6} differ {}", self.name, self.tried, self.differ, self.first);
        self.differ == 0
    }
}

// A plain generator for the patterns (xorshift64*), not one of those that are compared.
struct Source(u64);

impl Source {
    fn next(&mut self) -> u64 {
        self.0 ^= self.0 >> 12;
        self.0 ^= self.0 << 25;
        self.0 ^= self.0 >> 27;
        self.0.wrapping_mul(0x2545_F491_4F6C_DD1D)
    }

    // any single; one in eight at an edge of its binade or special
    fn single(&mut self) -> f32 {
        let r = self.next();
        let b = (r >> 32) as u32;
        f32::from_bits(match r & 7 {
            0 => [0, 1, 0x7f_ffff, 0x80_0000, 0x3f80_0000, 0x7f7f_ffff, 0x7f80_0000, 0x7fc0_0000][(r >> 8 & 7) as usize] | b & 0x8000_0000,
            1 => b & 0xff80_0000 | if r & 8 == 0 { 0 } else { 0x7f_ffff },
            _ => b,
        })
    }

    // any double; most near a tie of the singles, or of the range of the singles
    fn double(&mut self) -> f64 {
        let r = self.next();
        match r & 7 {
            0 => f64::from_bits(self.next()),
            1 => f64::from_bits(((r >> 8) % 2048) << 52 | (r >> 63 << 63) | [0, 1, 0x000f_ffff_ffff_ffff, 0x0008_0000_0000_0000][(r >> 32 & 3) as usize]),
            _ => {
                // half way between two singles, subnormal ones too, and up to two places off
                let x = self.next() as u32 & 0x7fff_ffff;
                let (lo, hi) = (f32::from_bits(x % 0x7f80_0000) as f64, f32::from_bits(x % 0x7f80_0000 + 1) as f64);
                let hi = if hi.is_infinite() { 2f64.powi(128) } else { hi };
                let tie = ((lo + hi) / 2.0).to_bits().wrapping_add((r >> 8) % 5).saturating_sub(2);
                f64::from_bits(tie | r >> 63 << 63)
            }
        }
    }

    // any double; most below 2^22 in size, with some halves and whole ones and their neighbours
    fn position(&mut self) -> f64 {
        let r = self.next();
        let near = (r >> 42) as f64;
        let sign = r << 63;
        f64::from_bits(match r >> 20 & 3 {
            0 => self.next(),
            1 => sign | (near + (r & 0xf_ffff) as f64 / 1_048_576.0).to_bits(),
            2 => sign | (near / 2.0).to_bits(),
            _ => (sign | (near / 2.0).to_bits()).wrapping_add(r >> 1 & 2).wrapping_sub(1),
        })
    }

    // a word of any length; most with a tie in its digits
    fn word(&mut self) -> u64 {
        let r = self.next();
        let n = self.next() >> (r % 64);
        match r >> 8 & 3 {
            0 => n,
            1 => n & !((1 << (r >> 16) % 64) - 1),
            _ => {
                let at = (r >> 16) % 63;
                ((n >> at << at) | 1 << at).wrapping_add((r >> 32) % 3).wrapping_sub(1)
            }
        }
    }
}

fn every_single(stride: usize) -> bool {
    let names = ["widen", "f32_to_u8", "f32_to_u32", "f32_to_usize", "f32_to_i64", "abs_f32", "is_finite_f32", "bits_f32", "from_bits_f32", "u32_to_f32", "u32_to_f64", "i32_to_f32", "ceil_f32", "round_f32", "sqrt_f32"];
    let mut t = names.map(Tally::new);
    for b in (0..=u32::MAX).step_by(stride) {
        let at = || format!("{b:08x}");
        let x = f32::from_bits(b);
        t[0].hold(bits64(rt_widen(x)), bits64(x as f64), at);
        t[1].hold(rt_f32_to_u8(x) as u64, (x as u8) as u64, at);
        t[2].hold(rt_f32_to_u32(x) as u64, (x as u32) as u64, at);
        t[3].hold(rt_f32_to_usize(x) as u64, (x as usize) as u64, at);
        t[4].hold(rt_f32_to_i64(x) as u64, (x as i64) as u64, at);
        t[5].hold(bits(rt_abs_f32(x)) as u64, bits(x.abs()) as u64, at);
        t[6].hold(rt_is_finite_f32(x) as u64, x.is_finite() as u64, at);
        t[7].hold(rt_bits_f32(x) as u64, bits(x) as u64, at);
        t[8].hold(bits(rt_from_bits_f32(b)) as u64, bits(x) as u64, at);
        t[9].hold(bits(rt_u32_to_f32(b)) as u64, bits(b as f32) as u64, at);
        t[10].hold(bits64(rt_u32_to_f64(b)), bits64(b as f64), at);
        t[11].hold(bits(rt_i32_to_f32(b as i32)) as u64, bits(b as i32 as f32) as u64, at);
        t[12].hold(bits(rt_ceil_f32(x)) as u64, bits(x.ceil()) as u64, at);
        t[13].hold(bits(rt_round_f32(x)) as u64, bits(x.round()) as u64, at);
        t[14].hold(bits(rt_sqrt_f32(x)) as u64, bits(x.sqrt()) as u64, at);
    }
    t.iter().fold(true, |ok, t| t.say() && ok)
}

fn many(count: u64) -> bool {
    let names = ["narrow", "f64_to_usize", "u64_to_f32", "u64_to_f64", "max_f32", "min_f32", "clamp_f32", "wrapping_mul_u64", "splitmix64", "uniform", "rand01", "trunc_f64", "floor_f64", "fract_f64"];
    let mut t = names.map(Tally::new);
    let mut s = Source(0x1234_5678_9abc_def1);
    for _ in 0..count {
        let x = s.double();
        let at = || format!("{:016x}", x.to_bits());
        t[0].hold(bits(rt_narrow(x)) as u64, bits(x as f32) as u64, at);
        t[1].hold(rt_f64_to_usize(x) as u64, (x as usize) as u64, at);
        let (n, m) = (s.word(), s.word());
        let at = || format!("{n:016x} {m:016x}");
        t[2].hold(bits(rt_u64_to_f32(n)) as u64, bits(n as f32) as u64, at);
        t[3].hold(bits64(rt_u64_to_f64(n)), bits64(n as f64), at);
        let (x, y, z) = (s.single(), s.single(), s.single());
        let at = || format!("{:08x} {:08x} {:08x}", x.to_bits(), y.to_bits(), z.to_bits());
        t[4].hold(bits(rt_max_f32(x, y)) as u64, bits(max(x, y)) as u64, at);
        t[5].hold(bits(rt_min_f32(x, y)) as u64, bits(min(x, y)) as u64, at);
        // Rust's clamp takes only bounds in order
        if y <= z {
            t[6].hold(bits(rt_clamp_f32(x, y, z)) as u64, bits(x.clamp(y, z)) as u64, at);
        } else if z <= y {
            t[6].hold(bits(rt_clamp_f32(x, z, y)) as u64, bits(x.clamp(z, y)) as u64, at);
        }
        let at = || format!("{n:016x} {m:016x}");
        t[7].hold(rt_wrapping_mul_u64(n, m), n.wrapping_mul(m), at);
        t[8].hold(rt_splitmix64(n), splitmix64(n), at);
        t[9].hold(bits(rt_uniform(n)) as u64, bits((n >> 40) as f32 / (1u64 << 24) as f32) as u64, at);
        t[10].hold(bits(rt_rand01(x.to_bits(), n, m)) as u64, bits(rand01(x.to_bits(), n, m)) as u64, at);
        let y = s.position();
        let at = || format!("{:016x}", y.to_bits());
        t[11].hold(bits64(rt_trunc_f64(y)), bits64(y.trunc()), at);
        t[12].hold(bits64(rt_floor_f64(y)), bits64(y.floor()), at);
        t[13].hold(bits64(rt_fract_f64(y)), bits64(y.fract()), at);
    }
    t.iter().fold(true, |ok, t| t.say() && ok)
}

// Rust's own, behind the same kind of call.
mod rust {
    #[inline(never)]
    pub extern "C" fn narrow(x: f64) -> f32 {
        x as f32
    }
    #[inline(never)]
    pub extern "C" fn is_finite(x: f32) -> bool {
        x.is_finite()
    }
    #[inline(never)]
    pub extern "C" fn to_usize(x: f32) -> usize {
        x as usize
    }
    #[inline(never)]
    pub extern "C" fn splitmix64(z: u64) -> u64 {
        super::splitmix64(z)
    }
    #[inline(never)]
    pub extern "C" fn max(x: f32, y: f32) -> f32 {
        x.max(y)
    }
    #[inline(never)]
    pub extern "C" fn abs(x: f32) -> f32 {
        x.abs()
    }
    #[inline(never)]
    pub extern "C" fn sqrt(x: f32) -> f32 {
        x.sqrt()
    }
    #[inline(never)]
    pub extern "C" fn round(x: f32) -> f32 {
        x.round()
    }
    #[inline(never)]
    pub extern "C" fn ceil(x: f32) -> f32 {
        x.ceil()
    }
    #[inline(never)]
    pub extern "C" fn floor(x: f64) -> f64 {
        x.floor()
    }
    #[inline(never)]
    pub extern "C" fn fract(x: f64) -> f64 {
        x.fract()
    }
    #[inline(never)]
    pub extern "C" fn u64_to_f32(n: u64) -> f32 {
        n as f32
    }
}

// The shortest of twenty runs over 4096 inputs, 100 times each.
fn each<T: Copy, R>(inputs: &[T], f: impl Fn(T) -> R) -> f64 {
    let mut best = f64::MAX;
    for _ in 0..20 {
        let start = Instant::now();
        for _ in 0..100 {
            for &x in inputs {
                black_box(f(x));
            }
        }
        best = best.min(start.elapsed().as_secs_f64() * 1e9 / (100 * inputs.len()) as f64);
    }
    best
}

fn time() {
    let mut s = Source(0xfeed_5678_9abc_def1);
    // what a voice sees: values of a block, positions, gains
    let singles: Vec<f32> = (0..4096).map(|_| (s.next() >> 40) as f32 / 16777216.0 * 2.0 - 1.0).collect();
    let positions: Vec<f32> = (0..4096).map(|_| (s.next() >> 40) as f32 / 2048.0).collect();
    let doubles: Vec<f64> = (0..4096).map(|_| (s.next() >> 11) as f64 / (1u64 << 53) as f64 * 2.0 - 1.0).collect();
    let words: Vec<u64> = (0..4096).map(|_| s.next()).collect();
    let pairs: Vec<(f32, f32)> = singles.iter().map(|&x| (x, 0.25)).collect();
    let falling: Vec<(f32, f32)> = (0..4096).map(|i| (1.0 - i as f32 / 4096.0, 0.0)).collect();
    let say = |name: &str, port: f64, rust: f64| println!("{name:<26} port {port:6.2} ns   Rust {rust:6.2} ns   ratio {:.2}", port / rust);
    say("narrow", each(&doubles, |x| rt_narrow(x)), each(&doubles, |x| rust::narrow(x)));
    say("is_finite_f32", each(&singles, |x| rt_is_finite_f32(x)), each(&singles, |x| rust::is_finite(x)));
    say("f32_to_usize", each(&positions, |x| rt_f32_to_usize(x)), each(&positions, |x| rust::to_usize(x)));
    say("splitmix64", each(&words, |x| rt_splitmix64(x)), each(&words, |x| rust::splitmix64(x)));
    say("max_f32, either larger", each(&pairs, |(x, y)| rt_max_f32(x, y)), each(&pairs, |(x, y)| rust::max(x, y)));
    say("max_f32, x larger", each(&falling, |(x, y)| rt_max_f32(x, y)), each(&falling, |(x, y)| rust::max(x, y)));
    say("abs_f32", each(&singles, |x| rt_abs_f32(x)), each(&singles, |x| rust::abs(x)));
    let places: Vec<f64> = positions.iter().map(|&x| x as f64 * 1.0227).collect();
    say("floor_f64", each(&places, |x| rt_floor_f64(x)), each(&places, |x| rust::floor(x)));
    say("fract_f64", each(&places, |x| rt_fract_f64(x)), each(&places, |x| rust::fract(x)));
    say("ceil_f32", each(&positions, |x| rt_ceil_f32(x)), each(&positions, |x| rust::ceil(x)));
    say("round_f32", each(&positions, |x| rt_round_f32(x)), each(&positions, |x| rust::round(x)));
    say("sqrt_f32", each(&positions, |x| rt_sqrt_f32(x)), each(&positions, |x| rust::sqrt(x)));
    say("u64_to_f32", each(&words, |x| rt_u64_to_f32(x)), each(&words, |x| rust::u64_to_f32(x)));
}

fn main() {
    let word = std::env::args().nth(1).unwrap_or("100".into());
    if word == "time" {
        return time();
    }
    let millions: u64 = word.parse().expect("a number of millions, or time");
    let ok = many(millions * 1_000_000);
    let stride = std::env::args().nth(2).map_or(1, |s| s.parse().expect("a stride"));
    let ok = every_single(stride) && ok;
    std::process::exit(if ok { 0 } else { 1 });
}
