//! Scripts of the desk lister.
use crate::rng::{Clock, Rng, freq, hex, key_freq, velocity};
use std::fmt::Write;

const GROUPS: [i64; 6] = [0, 1, 2, 3, -1, 1];

fn opt(g: &mut Rng, none_percent: u64, from: &[i64]) -> String {
    if g.percent(none_percent) { "-".into() } else { g.pick(from).to_string() }
}
fn group(g: &mut Rng) -> i64 { if g.per_mille(15) { g.pick(&[i32::MAX as i64, i32::MIN as i64, -2]) } else { g.pick(&GROUPS) } }

struct Kit { samples: u64, keys: Vec<u8>, chokes: bool, wide: bool }

/// The fields of an R line.
fn region(g: &mut Rng, kit: &Kit) -> Vec<String> {
    let sample = if kit.samples == 0 || g.percent(35) { if g.percent(4) { "4294967295".into() } else { "-".into() } } else { g.below(kit.samples).to_string() };
    let (lo, hi) = match if kit.wide { 9 } else { g.below(10) } {
        0 => (g.below(64), g.between(64, 127)),
        1..=3 => (0, 127),
        9 => (kit.keys[0] as u64, kit.keys[0] as u64),
        _ => { let k = g.pick(&kit.keys) as u64; (k, k) }
    };
    let (lov, hiv) = match g.below(8) { 0 => (0, g.below(128)), 1 => (g.below(128), 127), 2 => { let v = g.below(128); (v, v) } _ => (0, 127) };
    let (np, p) = if kit.chokes { (30, 50) } else { (75, 80) };
    let np = opt(g, np, &[0, 1, 1, 2, 3, 4_294_967_295]);
    let p = opt(g, p, &[0, 1, 1, 2, 3, 4_294_967_295]);
    let seq = if g.percent(65) { ("-".into(), "-".into()) } else { let l = g.between(1, 4); (l.to_string(), g.between(1, l).to_string()) };
    let off_by = if g.percent(if kit.chokes { 25 } else { 60 }) { "-".into() } else { group(g).to_string() };
    let trigger = g.weighted(&[55, 14, 11, 10, 10]);
    let loop_mode = g.weighted(&[35, 25, 20, 20]);
    vec![sample, lo.to_string(), hi.to_string(), lov.to_string(), hiv.to_string(), loop_mode.to_string(), trigger.to_string(), group(g).to_string(), off_by, np, p, seq.0, seq.1]
}

/// One field of one region at or past a limit.
fn spoil_region(g: &mut Rng, r: &mut [String], samples: u64) {
    let (at, v) = match g.below(12) {
        0 => (0, samples.to_string()),
        1 => (1, g.pick(&["127", "128", "255"]).into()),
        2 => (2, g.pick(&["127", "128", "0"]).into()),
        3 => (3, g.pick(&["127", "128"]).into()),
        4 => (4, g.pick(&["127", "128", "0"]).into()),
        5 => (12, g.pick(&["0", "5", "4294967295"]).into()),
        6 => (11, g.pick(&["0", "1", "4294967295"]).into()),
        7 => (7, g.pick(&["2147483647", "-2147483648", "-0", "007"]).into()),
        8 => (0, "4294967294".into()),
        _ => (5 + g.below(2) as usize, g.below(6).to_string()),
    };
    r[at] = v;
    if at == 11 && r[12] == "-" { r[12] = "1".into(); }
    if at == 12 && r[11] == "-" { r[11] = "4".into(); }
}

fn rate(g: &mut Rng) -> u64 { g.pick(&[8_000, 8_000, 8_000, 11_025, 22_050, 44_100, 44_100, 48_000, 96_000, 192_000]) }

fn program(g: &mut Rng, out: &mut String) -> (Vec<u8>, bool) {
    let keys: Vec<u8> = (0..g.between(1, 4)).map(|_| g.pick(&[36, 38, 42, 46, 60, 69, 0, 127])).collect();
    let crowd = g.percent(8);
    let samples = if g.percent(1) { g.pick(&[256, 257]) } else { g.below(4) };
    let kit = Kit { samples, keys, chokes: g.percent(60), wide: crowd && g.percent(80) };
    for _ in 0..samples {
        let frames = if samples > 9 { 3 } else { g.pick(&[1, 2, 3, 20, 100, 300, 1_000, 8_000]) };
        let r = if g.percent(80) { rate(g) } else { g.pick(&[1, 100, 768_000, 700_000]) };
        let r = if g.per_mille(8) { g.pick(&[0, 768_001, 999_999]) } else { r };
        writeln!(out, "S,{r},{frames}").unwrap();
    }
    let n = if crowd { g.pick(&[31, 32, 33, 34, 40, 64]) } else if g.percent(1) { g.pick(&[255, 256, 257]) } else { g.weighted(&[1, 15, 22, 18, 15, 10, 8, 6, 5]) as u64 };
    let all = g.percent(50);
    let bad = if g.percent(5) { g.below(n.max(1)) } else { u64::MAX };
    for i in 0..n {
        let mut r = region(g, &kit);
        if i == bad { spoil_region(g, &mut r, samples); }
        if crowd && (all || g.percent(60)) {
            // it starts on every note of its key, and stays
            for (k, v) in [(3, "0"), (4, "127"), (5, "1"), (6, "0")] { r[k] = v.into(); }
            r[8..].fill("-".into());
        }
        writeln!(out, "R,{}", r.join(",")).unwrap();
    }
    (kit.keys, crowd)
}

/// A line that is refused, or one just inside the limit.
fn refused(g: &mut Rng, out: &mut String, made: u64) {
    let v = g.between(1, made.max(1));
    let line = match g.below(14) {
        0 => format!("V,{}", g.pick(&[7_999, 8_000, 192_000, 192_001, 0, 999_999])),
        1 => "V,1000000".into(),
        2 | 3 => format!("B,{v},0,{},1,43DC0000,3F800000", g.pick(&[0, 128, 129, 999_999])),
        4 => format!("B,{v},0,1000000,1,43DC0000,3F800000"),
        5 | 6 => format!("B,{v},{},64,1,43DC0000,3F800000", g.pick(&[1u64 << 63, (1 << 63) + 1, u64::MAX])),
        7 => format!("B,{v},18446744073709551616,64,1,43DC0000,3F800000"),
        8 => format!("B,{},0,64,1,43DC0000,3F800000", g.pick(&[0, made + 1, u64::MAX])),
        9 => format!("Z,{}", g.pick(&[0, made + 1])),
        10 => format!("D,{}", g.pick(&[0, made + 1])),
        11 => format!("B,{v},0,64,2,43DC0000,3F800000"),
        12 => "S,44100,10".into(),
        _ => format!("B,{v},0,0000{},1,43dc0000,3f800000", g.between(1, 64)),
    };
    writeln!(out, "{line}").unwrap();
}

pub fn script(g: &mut Rng) -> String {
    let mut out = String::new();
    let (keys, crowd) = program(g, &mut out);
    let mut live: Vec<u64> = Vec::new();
    let first = if g.percent(6) { g.pick(&[15, 16, 17]) } else if crowd && g.percent(45) { 16 } else { g.weighted(&[0, 25, 30, 20, 15, 5, 5]) as u64 };
    for i in 1..=first {
        writeln!(out, "V,{}", rate(g)).unwrap();
        live.push(i);
    }
    let mut made = first;
    let mut clock = Clock::new(g);
    let (odd, lower) = (g.pick(&[0, 0, 0, 10]), g.percent(3));
    let steps = if crowd { g.between(10, 30) } else { g.between(5, 70) };
    for s in 0..steps {
        if live.is_empty() || (live.len() < 16 && !crowd && g.percent(3)) {
            writeln!(out, "V,{}", rate(g)).unwrap();
            made += 1;
            live.push(made);
            continue;
        }
        // a crowd begins with a note of every voice on one key
        let crowding = crowd && s < first && s < live.len() as u64;
        let i = if crowding { s as usize } else { g.below(live.len() as u64) as usize };
        match if crowding { 9 } else { g.below(40) } {
            0 => writeln!(out, "Z,{}", live[i]).unwrap(),
            1 => { writeln!(out, "D,{}", live[i]).unwrap(); live.remove(i); }
            _ => {
                let frames = g.pick(&[1, 2, 16, 64, 64, 128, 128, 128, 127, g.0 % 128 + 1]);
                let last = g.percent(40);
                let t = clock.offset(g, frames, last);
                let gate = (crowding || g.percent(60)) as u8;
                let f = hex(if crowding { key_freq(keys[0] as f64) } else { freq(g, &keys, odd) });
                let v = hex(velocity(g, odd));
                let line = format!("B,{},{t},{frames},{gate},{f},{v}", live[i]);
                let line = if lower { line.to_lowercase().replacen('b', "B", 1) } else { line };
                writeln!(out, "{line}").unwrap();
            }
        }
    }
    if g.percent(35) {
        refused(g, &mut out, made);
        for _ in 0..g.below(4) { writeln!(out, "B,1,0,64,1,43DC0000,3F800000").unwrap(); }
    }
    out
}

/// Kits of two regions that choke, steal or release each other, keys 60 and 62.
const KITS: [&str; 10] = [
    "R,-,60,60,0,127,0,0,1,2,-,-,-,-\nR,-,62,62,0,127,0,0,2,1,-,-,-,-\n",
    "R,-,60,62,0,127,0,0,1,1,-,-,-,-\nR,-,62,62,0,127,1,0,1,-,-,1,-,-\n",
    "R,-,60,62,0,127,0,0,1,-,1,-,-,-\nR,-,60,60,0,127,0,2,1,-,2,-,-,-\n",
    "R,-,60,62,0,127,0,0,1,-,-,1,-,-\nR,-,60,62,0,127,0,1,2,1,-,1,-,-\n",
    "R,-,60,62,0,127,0,3,1,2,0,-,-,-\nR,-,60,62,0,127,0,4,2,1,-,0,-,-\n",
    "R,-,60,62,0,127,0,0,1,2,-,-,2,1\nR,-,60,62,0,127,0,0,2,1,-,-,2,2\n",
    "R,0,60,62,0,127,0,0,1,2,2,-,-,-\nR,0,62,62,64,127,0,1,2,-,-,2,-,-\n",
    "R,0,60,60,0,127,1,0,1,1,1,1,-,-\nR,0,60,62,0,127,2,2,1,1,1,1,-,-\n",
    "R,-,60,62,0,64,0,0,1,2,1,-,-,-\nR,-,60,62,32,127,0,0,1,2,1,-,-,-\n",
    "R,0,60,62,0,127,3,0,0,0,-,2,-,-\nR,-,62,62,0,127,0,1,0,0,2,1,2,2\n",
];
/// Events: voice, gate, key, velocity; or a line.
const EVENTS: [(&str, &str); 12] = [
    ("B,1,", ",64,1,4382D10F,3F800000"),
    ("B,1,", ",64,1,4392D7D8,3F000000"),
    ("B,1,", ",128,0,4382D10F,3F800000"),
    ("B,2,", ",64,1,4382D10F,3F000000"),
    ("B,2,", ",1,1,4392D7D8,3F800000"),
    ("B,2,", ",128,0,4392D7D8,3E800000"),
    ("Z,1", ""),
    ("D,1", ""),
    ("Z,2", ""),
    ("V,8000", ""),
    ("B,3,", ",64,1,4382D10F,3F800000"),
    ("B,1,", ",128,0,00000000,7FC00000"),
];
/// How many scripts there are of this many events.
pub fn short_count(length: u32) -> u64 { KITS.len() as u64 * (EVENTS.len() as u64).pow(length) }
/// Script k of them: every sequence of events over every kit.
pub fn short(k: u64, length: u32) -> String {
    let mut out = format!("S,8000,40\n{}V,8000\nV,8000\n", KITS[(k % KITS.len() as u64) as usize]);
    let mut rest = k / KITS.len() as u64;
    for i in 0..length as u64 {
        let (head, tail) = EVENTS[(rest % EVENTS.len() as u64) as usize];
        rest /= EVENTS.len() as u64;
        if tail.is_empty() { writeln!(out, "{head}").unwrap() } else { writeln!(out, "{head}{}{tail}", i * 64).unwrap() }
    }
    // what is left waiting acts
    out + "B,2,512,128,0,4382D10F,3F800000\nB,1,512,128,1,4382D10F,3F800000\n"
}
