// Writes the answers that `stdout` holds, by the machine's own arithmetic: Rust's operators and casts on the tables of
// src/tables.rt. It calls nothing of the port. `black_box` keeps the compiler from working them out itself.
//
//     rustc --edition 2021 -O crates/exact_vectors/answers.rs -o target/answers && target/answers > crates/exact_vectors/stdout
use std::hint::black_box;

include!("src/tables.rt");

const GAMMA: u64 = 0x9e37_79b9_7f4a_7c15;

// Every NaN has the one pattern. The test is on the bits: the compiler may take one NaN for another.
fn bits(x: f32) -> u32 {
    let b = black_box(x.to_bits());
    if b & 0x7fff_ffff > 0x7f80_0000 { 0x7fc0_0000 } else { b }
}

fn bits64(x: f64) -> u64 {
    let b = black_box(x.to_bits());
    if b & 0x7fff_ffff_ffff_ffff > 0x7ff0_0000_0000_0000 { 0x7ff8_0000_0000_0000 } else { b }
}

fn signed(n: i64) -> String {
    if n < 0 { format!("~{:016x}", !n) } else { format!("{n:016x}") }
}

// Of two zeros Rust leaves open which one it gives: the maximum is the plus one, the minimum the minus one.
fn max(x: f32, y: f32) -> f32 {
    if x == 0.0 && y == 0.0 { if x.is_sign_positive() { x } else { y } } else { x.max(y) }
}

fn min(x: f32, y: f32) -> f32 {
    if x == 0.0 && y == 0.0 { if x.is_sign_negative() { x } else { y } } else { x.min(y) }
}

fn splitmix64(mut z: u64) -> u64 {
    z = z.wrapping_add(GAMMA);
    z = (z ^ (z >> 30)).wrapping_mul(0xbf58_476d_1ce4_e5b9);
    z = (z ^ (z >> 27)).wrapping_mul(0x94d0_49bb_1331_11eb);
    z ^ (z >> 31)
}

fn uniform(h: u64) -> f32 {
    (h >> 40) as f32 / (1u64 << 24) as f32
}

fn rand01(seed: u32, serial: u64, salt: u64) -> f32 {
    uniform(splitmix64(splitmix64((seed as u64) << 32 ^ salt) ^ serial))
}

fn of_single(b: u32) {
    let x = f32::from_bits(b);
    let row = |name: &str, r: f32| println!("{name} {b:08x} {:08x}", bits(r));
    row("from_bits_f32", x);
    row("abs_f32", x.abs());
    row("clamp_f32_0_1", x.clamp(0.0, 1.0));
    row("clamp_f32_zeros", x.clamp(0.0, -0.0));
    row("clamp_f32_infinities", x.clamp(f32::NEG_INFINITY, f32::INFINITY));
    println!("is_finite_f32 {b:08x} {}", x.is_finite());
    println!("widen {b:08x} {:016x}", bits64(x as f64));
    println!(
        "f32_to_u8_u32_usize_i64 {b:08x} {:016x} {:016x} {:016x} {}",
        x as u8,
        x as u32,
        x as usize,
        signed(x as i64)
    );
    row("ceil_f32", x.ceil());
    row("round_f32", x.round());
    row("sqrt_f32", x.sqrt());
}

fn of_double(b: u64) {
    let x = f64::from_bits(b);
    println!("narrow {b:016x} {:08x}", bits(x as f32));
    println!("f64_to_usize {b:016x} {:016x}", x as usize);
    println!(
        "trunc_floor_fract_f64 {b:016x} {:016x} {:016x} {:016x}",
        bits64(x.trunc()),
        bits64(x.floor()),
        bits64(x.fract())
    );
}

fn of_whole(n: u64) {
    let half = n as u32;
    println!(
        "to_f32_f64 {n:016x} {:08x} {:016x} {:08x} {:016x}",
        bits(n as f32),
        bits64(n as f64),
        bits(half as f32),
        bits64(half as f64)
    );
    println!(
        "splitmix64_uniform_rand01 {n:016x} {:016x} {:08x} {:08x} {:016x}",
        splitmix64(n),
        bits(uniform(n)),
        bits(rand01(half, n, 65536)),
        n.wrapping_mul(n)
    );
}

// The outputs as they are published, and the same by the function above.
fn published(seed: u64, outputs: [u64; 5]) {
    for (k, output) in outputs.into_iter().enumerate() {
        assert_eq!(splitmix64(seed.wrapping_add(GAMMA.wrapping_mul(k as u64))), output);
        println!("SplitMix64 {output}");
    }
}

fn main() {
    for b in SINGLES {
        of_single(black_box(b));
    }
    for b in PAIRED {
        for c in PAIRED {
            let (x, y) = (f32::from_bits(black_box(b)), f32::from_bits(black_box(c)));
            println!("max_min_f32 {b:08x} {c:08x} {:08x} {:08x}", bits(max(x, y)), bits(min(x, y)));
        }
    }
    for b in DOUBLES {
        of_double(black_box(b));
    }
    for n in WHOLES {
        of_whole(black_box(n));
    }
    for n in SIGNED {
        println!("i32_to_f32 {} {:08x}", signed(n as i64), bits(black_box(n) as f32));
    }
    published(
        1234567,
        [
            6457827717110365317,
            3203168211198807973,
            9817491932198370423,
            4593380528125082431,
            16408922859458223821,
        ],
    );
    published(
        0,
        [
            16294208416658607535,
            7960286522194355700,
            487617019471545679,
            17909611376780542444,
            1961750202426094747,
        ],
    );
}
