//! Scripts of the block lister.
use crate::rng::{Clock, Rng, freq, hex, key_freq, past, velocity, voice_rate};
use std::fmt::Write;

/// Places of the fields of an R line.
pub const SAMPLE: usize = 0;
pub const LOKEY: usize = 1;
pub const OFFSET: usize = 9;
pub const END: usize = 10;
pub const LOOP_MODE: usize = 11;
pub const LOOP: usize = 13;
pub const SEQ: usize = 27;
pub const TRIGGER: usize = 35;
const VELOCITY: usize = 3;
const KEYTRACK: usize = 6;
const TRANSPOSE: usize = 8;
const VOLUME: usize = 15;
const DELAY: usize = 20;
const RAND: usize = 29;
const GROUP: usize = 31;
const OFF_TIME: usize = 34;
const DELAY_S: usize = 37;
const POLYPHONY: usize = 38;
const BEND: usize = 40;
const XF: usize = 42;
/// The fields that are singles, without the optional ones.
const SINGLES: [usize; 19] = [6, 7, 15, 16, 17, 18, 19, 20, 21, 22, 23, 24, 25, 26, 34, 36, 37, 40, 41];
const TIMES: [usize; 7] = [20, 21, 22, 23, 25, 34, 37];

/// What a script is about.
#[derive(Clone, Copy, PartialEq)]
enum About { Offs, Plain, Chokes, Gates, Pitch, Filters, Releases, Full, Crowd, Voices, Edge }
const ABOUT: [About; 11] = [About::Offs, About::Plain, About::Chokes, About::Gates, About::Pitch, About::Filters, About::Releases, About::Full, About::Crowd, About::Voices, About::Edge];

struct Region { fields: Vec<String>, points: Vec<String>, filters: Vec<String>, bands: Vec<String> }
struct Sample { rate: f32, channels: u64, frames: u64, kind: u64 }

fn sample(g: &mut Rng, room: u64) -> Sample {
    let channels = if g.percent(35) { 2 } else { 1 };
    let frames = match g.below(12) {
        0 => g.between(1, 3),
        1 => g.between(4, 60),
        2..=5 => g.between(4_000, 20_000),
        _ => g.between(100, 2_500),
    };
    let rate = match g.below(14) {
        0 => 768_000.0,
        1 => g.real(1.0, 4_000.0),
        2 => g.pick(&[1.0, 1e-30, f32::MIN_POSITIVE, f32::from_bits(1), 0.5]),
        3 => 192_000.0,
        4 | 5 => 8_000.0,
        6 | 7 => 48_000.0,
        8 => g.real(4_000.0, 200_000.0),
        _ => 44_100.0,
    };
    Sample { rate, channels, frames: frames.min(room / channels).max(1), kind: g.weighted(&[5, 80, 15]) as u64 }
}

fn time(g: &mut Rng) -> f32 {
    match g.below(16) {
        0..=4 => 0.0,
        5..=8 => g.real(0.0, 0.01),
        9 | 10 => g.real(0.0, 0.1),
        11 => g.real(0.0, 4.0),
        12 => g.pick(&[3_600.0, 3_599.0, 100.0]),
        13 => g.real(-1.0, 0.0),
        _ => g.real(0.0, 0.002),
    }
}
fn db(g: &mut Rng) -> f32 {
    match g.below(8) { 0..=2 => 0.0, 3 => g.real(-80.0, 24.0), 4 => g.pick(&[-200.0, 120.0, -0.0]), _ => g.real(-12.0, 6.0) }
}
fn percentage(g: &mut Rng, usual: f32) -> f32 {
    match g.below(8) { 0 => g.real(-150.0, 150.0), 1 => g.pick(&[0.0, 100.0, -100.0, 50.0, -50.0, 0.3, 0.32, 0.33, 1e-3]), 2 | 3 => g.real(-100.0, 100.0), _ => usual }
}
fn cents(g: &mut Rng, usual: f32) -> f32 {
    match g.below(10) { 0 => g.pick(&[9_600.0, -9_600.0, 1_200.0, -1_200.0, 0.0]), 1 => g.real(-9_600.0, 9_600.0), 2 | 3 => g.real(-1_200.0, 1_200.0), 4 => g.real(-100.0, 100.0), _ => usual }
}
fn none(r: &mut [String], at: usize, n: usize) { r[at..at + n].fill("-".into()); }

/// Loop points, offset and end around the sample's frames; never a small loop far behind a large offset (see `slow`).
fn position(g: &mut Rng, f: &mut [String], frames: u64, loops: u64) {
    let n = frames.max(1);
    f[LOOP_MODE] = (if g.percent(loops) { 2 + g.below(2) } else { g.below(2) }).to_string();
    f[LOOP_MODE + 1] = g.below(4).to_string();
    let looped = g.percent(if loops > 50 { 95 } else { 50 });
    if looped {
        let (a, b) = match g.below(12) {
            0 => { let a = g.below(n); (a, a) }
            1 => (0, n - 1),
            2 => (g.below(n), n),
            3 => (n - 1, n - 1),
            4 => { let a = g.below(n); (a, (a + g.below(4)).min(n - 1)) }
            5 => (0, g.below(n)),
            6 => (n, n + g.below(5)),
            _ => { let (a, b) = (g.below(n), g.below(n)); (a.min(b), a.max(b)) }
        };
        (f[LOOP], f[LOOP + 1]) = (a.to_string(), b.to_string());
    }
    f[OFFSET] = match g.below(12) {
        0 => g.below(n),
        1 => n - 1,
        2 => n,
        3 => n + g.below(3_000),
        4 if !looped => g.pick(&[u32::MAX as u64, 1 << 31, 1 << 24]),
        5 => g.below(n.min(50)),
        _ => 0,
    }
    .to_string();
    f[END] = match g.below(12) {
        0 => g.below(n).to_string(),
        1 => g.pick(&[0, 1, n - 1, n, u32::MAX as u64]).to_string(),
        2 => (n / 2).to_string(),
        _ => "-".into(),
    };
}

fn filter(g: &mut Rng) -> String {
    let cutoff = match g.below(24) { 0 => g.odd_finite(), 1 | 2 => g.pick(&[0.0, 1.0, 20_000.0, 20_001.0, -5.0, 30_000.0]), 3..=5 => g.real(20.0, 16_000.0), _ => g.real(20.0, 4_000.0) };
    let res = match g.below(24) { 0..=2 => g.real(-80.0, 80.0), 3 => g.or_odd(0.0, 500), _ => g.real(-3.0, 20.0) };
    let track = match g.below(24) { 0..=5 => g.real(-1_200.0, 1_200.0), 6 => g.or_odd(100.0, 300), 7..=9 => 100.0, _ => 0.0 };
    let velt = match g.below(4) { 0 => g.real(-9_600.0, 9_600.0), _ => 0.0 };
    let gain = match g.below(24) { 0 => g.or_odd(0.0, 500), _ => g.real(-24.0, 24.0) };
    let center = if g.percent(3) { g.below(256) } else { g.below(128) };
    format!("{},{},{},{},{center},{},{}", g.below(13), hex(cutoff), hex(res), hex(track), hex(velt), hex(gain))
}
fn band(g: &mut Rng) -> String {
    // at or past the Nyquist frequency a wide band is NaN, and hides what else sounds: seldom
    let f = match g.below(30) { 0 => g.odd_finite(), 1 => g.pick(&[0.0, 1.0, 4_000.0, 96_000.0, -1.0]), 2 => g.real(20.0, 16_000.0), _ => g.real(20.0, 3_000.0) };
    let bw = match g.below(16) { 0 => g.or_odd(0.0, 300), 1 | 2 => g.real(0.0, 0.01), 3 => g.real(2.0, 12.0), _ => g.real(0.1, 2.0) };
    let v2f = match g.below(10) { 0 => g.real(-8_000.0, 8_000.0), 1 | 2 => g.real(-800.0, 800.0), _ => 0.0 };
    let v2g = if g.percent(30) { g.real(-24.0, 24.0) } else { 0.0 };
    let gain = match g.below(20) { 0 => g.or_odd(0.0, 300), _ => g.real(-24.0, 24.0) };
    format!("{},{},{},{},{},{}", g.below(3), hex(f), hex(bw), hex(gain), hex(v2f), hex(v2g))
}

/// Takes out what would keep the region from being heard.
fn calm(g: &mut Rng, f: &mut [String], key: u8) {
    let set = |f: &mut [String], at: usize, v: f32| f[at] = hex(v);
    f[OFFSET] = g.pick(&[0, 0, 1, 17]).to_string();
    f[END] = "-".into();
    (f[VELOCITY], f[VELOCITY + 1]) = ("0".into(), "127".into());
    f[KEYTRACK - 1] = (key as i64 + g.pick(&[0, 0, 0, 1, -1, 7, -12])).clamp(0, 127).to_string();
    set(f, KEYTRACK, g.pick(&[100.0, 100.0, 50.0]));
    set(f, KEYTRACK + 1, if g.percent(50) { 0.0 } else { g.real(-1_200.0, 1_200.0) });
    f[TRANSPOSE] = g.pick(&[0, 0, 0, 12, -12]).to_string();
    set(f, VOLUME, g.real(-12.0, 6.0));
    set(f, VOLUME + 4, g.pick(&[100.0, 50.0, 0.0]));
    set(f, DELAY, if g.percent(85) { 0.0 } else { g.real(0.0, 0.01) });
    set(f, DELAY + 1, g.real(-0.001, 0.005));
    set(f, DELAY + 4, if g.percent(60) { 100.0 } else { g.real(5.0, 100.0) });
    set(f, DELAY_S, if g.percent(85) { 0.0 } else { g.real(0.0, 0.01) });
    none(f, RAND, 2);
    none(f, XF, 5);
}

/// One key and group, notes that outlast their gate, and waits: several offs on one frame whose order shows.
fn crossing(g: &mut Rng, f: &mut [String], key: u8) {
    let (lov, hiv) = g.pick(&[(0, 127), (0, 63), (64, 127), (0, 127)]);
    for (i, v) in [key, key, lov, hiv].iter().enumerate() { f[LOKEY + i] = v.to_string(); }
    f[LOOP_MODE] = g.pick(&["1", "1", "0"]).into();
    for i in [DELAY, DELAY_S] { f[i] = hex(g.pick(&[0.0, 0.0, 1.0])); }
    if g.percent(60) { (f[SEQ], f[SEQ + 1]) = ("2".into(), g.between(1, 2).to_string()); } else { none(f, SEQ, 2); }
    none(f, RAND, 2);
    f[GROUP] = "1".into();
    f[GROUP + 1] = g.pick(&["-", "-", "-", "1", "2"]).into();
    f[TRIGGER] = g.weighted(&[50, 30, 20]).to_string();
    f[POLYPHONY] = g.pick(&["-", "1", "2", "3"]).into();
    f[POLYPHONY + 1] = g.pick(&["-", "-", "-", "1", "2"]).into();
}

/// Which keys and velocities it answers, and at what pitch.
fn window(g: &mut Rng, f: &mut [String], keys: &[u8], same: bool) {
    let (lo, hi) = match if same { 9 } else { g.below(10) } {
        0 => (g.below(64), g.between(64, 127)),
        1..=3 => (0, 127),
        9 => (keys[0] as u64, keys[0] as u64),
        _ => { let k = g.pick(keys) as u64; (k, k) }
    };
    let (lov, hiv) = match g.below(if same { 30 } else { 10 }) { 0 => (0, g.below(128)), 1 => (g.below(128), 127), 2 => { let v = g.below(128); (v, v) } _ => (0, 127) };
    let center = if g.percent(70) { g.pick(keys) as u64 } else { g.below(128) };
    for (i, v) in [lo, hi, lov, hiv, center].iter().enumerate() { f[LOKEY + i] = v.to_string(); }
    f[KEYTRACK] = hex(match g.below(10) { 0 => g.real(-1_200.0, 1_200.0), 1 => g.pick(&[0.0, 1_200.0, -1_200.0, 50.0, -100.0]), _ => 100.0 });
    f[KEYTRACK + 1] = hex(cents(g, 0.0));
    f[TRANSPOSE] = (match g.below(12) { 0 => g.below(255) as i64 - 127, 1 => g.pick(&[127, -127]), 2 | 3 => g.below(25) as i64 - 12, _ => 0 }).to_string();
    for i in 0..2 { f[BEND + i] = hex(cents(g, [200.0, -200.0][i])); }
}

/// Volume, pan, width, velocity, crossfade and the envelope.
fn level(g: &mut Rng, f: &mut [String], odd: u64) {
    let singles = [db(g), if g.percent(25) { g.real(-1.0, 24.0) } else { 0.0 }, percentage(g, 0.0), percentage(g, 100.0), percentage(g, 100.0)];
    for (i, v) in singles.iter().enumerate() { f[VOLUME + i] = hex(g.or_odd(*v, odd)); }
    let plain = g.percent(30);
    for i in 0..7 {
        let v = match i { 4 => percentage(g, 100.0), 6 => if g.percent(20) { g.real(-20.0, 120.0) } else { 0.0 }, 5 if plain => 0.001, _ if plain => 0.0, _ => time(g) };
        f[DELAY + i] = hex(v);
    }
    f[DELAY_S] = hex(if g.percent(80) { 0.0 } else { time(g) });
    if g.percent(20) {
        for i in 0..4 { f[XF + i] = hex(match g.below(8) { 0 => g.odd_finite(), 1 => g.real(-10.0, 140.0), _ => g.below(128) as f32 }); }
        f[XF + 4] = g.below(2).to_string();
    }
}

/// When it starts, and what it turns off.
fn choice(g: &mut Rng, f: &mut [String], about: About, odd: u64) {
    if g.percent(30) { let l = g.between(1, 4); (f[SEQ], f[SEQ + 1]) = (l.to_string(), g.between(1, l).to_string()); }
    if g.percent(12) {
        let (a, b) = match g.below(5) { 0 => (g.odd_finite(), g.odd_finite()), 1 => (0.0, 0.5), 2 => (0.5, 1.0), _ => (g.real(0.0, 0.6), g.real(0.3, 1.1)) };
        (f[RAND], f[RAND + 1]) = (hex(a), hex(b));
    }
    f[GROUP] = (if g.per_mille(10) { g.pick(&[i32::MAX, i32::MIN]) } else { g.pick(&[0, 1, 2, 3, -1]) }).to_string();
    let chokes = about == About::Chokes;
    if g.percent(if chokes { 75 } else { 30 }) { f[GROUP + 1] = g.pick(&[0, 1, 2, 3, -1]).to_string(); }
    f[GROUP + 2] = g.below(3).to_string();
    f[OFF_TIME] = hex(time(g));
    let releases = if about == About::Releases { 50 } else { 12 };
    f[TRIGGER] = (g.weighted(&[70, releases, releases, 8, 8])).to_string();
    f[TRIGGER + 1] = hex(if g.percent(40) { g.real(-20.0, 60.0) } else { g.or_odd(0.0, odd) });
    for i in 0..2 { if g.percent(if chokes { 50 } else { 18 }) { f[POLYPHONY + i] = g.pick(&[0, 1, 1, 2, 2, 3, u32::MAX]).to_string(); } }
}

fn point(g: &mut Rng) -> String {
    let gain = match g.below(6) { 0 => g.odd_finite(), 1 => g.real(-1.0, 4.0), _ => g.real(0.0, 1.0) };
    format!("{},{}", g.pick(&[0, 1, 64, 100, 126, 127, g.0 % 128]), hex(gain))
}

/// A note of silence that lasts as long as its gate.
fn steady(f: &mut [String], key: u8) {
    f[SAMPLE] = "-".into();
    for (i, v) in [key, key, 0, 127].iter().enumerate() { f[LOKEY + i] = v.to_string(); }
    f[LOOP_MODE] = "0".into();
    f[DELAY + 4] = hex(100.0);
    none(f, XF, 5);
}

fn region(g: &mut Rng, about: About, keys: &[u8], samples: &[Sample]) -> Region {
    let odd = g.pick(&[0, 0, 0, 0, 15]);
    let mut f: Vec<String> = vec!["-".into(); 47];
    let silence = match about { About::Chokes => 40, About::Full | About::Crowd => 50, _ => 8 };
    let chosen = if samples.is_empty() || g.percent(silence) { None } else { Some(g.below(samples.len() as u64)) };
    f[SAMPLE] = chosen.map_or(if g.percent(5) { "4294967295".into() } else { "-".into() }, |s| s.to_string());
    let same = matches!(about, About::Full | About::Crowd);
    window(g, &mut f, keys, same);
    position(g, &mut f, chosen.map_or(1_000, |s| samples[s as usize].frames), if about == About::Pitch { 75 } else { 40 });
    level(g, &mut f, odd);
    choice(g, &mut f, about, odd);
    if g.percent(50) { let key = g.pick(keys); calm(g, &mut f, key); }
    if about == About::Offs { crossing(g, &mut f, keys[0]); }
    if same && (about == About::Crowd || g.percent(85)) {
        // all of them start on the one key, and stay
        none(&mut f, SEQ, 4);
        none(&mut f, GROUP + 1, 1);
        none(&mut f, POLYPHONY, 2);
        f[TRIGGER] = if about == About::Crowd { 0 } else { g.weighted(&[90, 5, 5]) }.to_string();
        if about == About::Crowd && g.percent(90) { steady(&mut f, keys[0]); }
    }
    let most = match about { About::Filters => 6, About::Full | About::Crowd => 1, _ => 2 };
    let (some_filters, some_bands) = if about == About::Filters { (90, 60) } else { (25, 12) };
    let points = if g.percent(20) { (0..if g.percent(3) { 128 } else { g.between(1, 5) }).map(|_| point(g)).collect() } else { vec![] };
    let filters = if g.percent(some_filters) { (0..g.between(1, most)).map(|_| filter(g)).collect() } else { vec![] };
    let bands = if g.percent(some_bands) { (0..g.between(1, most)).map(|_| band(g)).collect() } else { vec![] };
    Region { fields: f, points, filters, bands }
}

/// The sinc table: none, a few entries, noise or a windowed sinc.
fn table(g: &mut Rng, out: &mut String) {
    match g.weighted(&[550, 390, 20, 40]) {
        0 => {}
        1 => for _ in 0..g.between(1, 60) {
            let i = g.pick(&[0, 8_193, 512, 4_096, g.0 % 8_194, g.0 % 8_194, g.0 % 2_048, g.0 % 2_048]);
            let v = g.real(-1.0, 1.0);
            writeln!(out, "W,{i},{}", hex(g.or_odd(v, 20))).unwrap();
        },
        2 => for i in 0..8_194 { writeln!(out, "W,{i},{}", hex(g.real(-1.0, 1.0))).unwrap(); },
        _ => for i in 0..8_194 {
            let x = i as f64 / 512.0 * std::f64::consts::PI;
            let w = (1.0 + (x / 16.0).cos()) / 2.0;
            writeln!(out, "W,{i},{}", hex((if i == 0 { 1.0 } else { x.sin() / x * w }) as f32)).unwrap();
        },
    }
}

/// One thing at a limit of 01's table, or just past it.
fn edge(g: &mut Rng, samples: &mut Vec<Sample>, regions: &mut Vec<Region>, out: &mut String) {
    let n = samples.len() as u64;
    let around = |v: f32| [v, past(v), -v, -past(v)];
    if regions.is_empty() { regions.push(region(g, About::Plain, &[60], samples)); }
    let at = g.below(regions.len() as u64) as usize;
    let r = &mut regions[at];
    let mut pair = |k: usize, a: String, b: String| { r.fields[k] = a; r.fields[k + 1] = b; };
    match g.below(28) {
        0 => r.fields[SAMPLE] = g.pick(&[n, n + 1, n.saturating_sub(1), 4_294_967_294, 4_294_967_295]).to_string(),
        1 => r.fields[LOKEY + g.below(5) as usize] = g.pick(&[0, 126, 127, 128, 255]).to_string(),
        2 => pair(LOKEY, "60".into(), g.pick(&[59, 60, 61]).to_string()),
        3 => pair(VELOCITY, "100".into(), g.pick(&[99, 100, 101]).to_string()),
        4 => r.fields[KEYTRACK] = hex(g.pick(&around(1_200.0))),
        5 => r.fields[g.pick(&[7, BEND, BEND + 1])] = hex(g.pick(&around(9_600.0))),
        6 => r.fields[TRANSPOSE] = g.pick(&["127", "-127", "128", "-128", "2147483647", "-2147483648", "-0"]).into(),
        7 | 8 => r.fields[g.pick(&TIMES)] = hex(g.pick(&[3_600.0, 3_599.999_8, past(3_600.0), -3_601.0, -1e30, 1e30])),
        9..=11 => r.fields[g.pick(&SINGLES)] = hex(g.odd()),
        12 => { let (l, p) = g.pick(&[(1, 1), (4, 4), (4, 5), (4, 0), (0, 0), (0, 1), (u32::MAX, 1), (u32::MAX, u32::MAX)]); pair(SEQ, l.to_string(), p.to_string()) }
        13 => { let (a, b) = g.pick(&[(5, 5), (6, 5), (0, 0), (0, u32::MAX), (u32::MAX, u32::MAX), (u32::MAX - 1, u32::MAX - 1)]); pair(LOOP, a.to_string(), b.to_string()) }
        14 => { let (a, b) = (g.odd(), g.odd()); pair(RAND, hex(a), hex(b)) }
        15 => { for i in 0..4 { r.fields[XF + i] = hex(if g.percent(70) { 64.0 } else { g.odd() }); } r.fields[XF + 4] = "0".into(); }
        16 => { let k = g.pick(&[6, 7]); r.filters = (0..k).map(|_| filter(g)).collect(); }
        17 => { let k = g.pick(&[6, 7]); r.bands = (0..k).map(|_| band(g)).collect(); }
        18 => { let k = g.pick(&[127, 128, 129]); r.points = (0..k).map(|_| format!("{},{}", g.below(128), hex(g.real(0.0, 1.0)))).collect(); }
        19 => r.points.push(format!("{},{}", g.pick(&[127, 128, 255]), hex(if g.percent(50) { 0.5 } else { g.odd() }))),
        20 => while (regions.len() as u64) < 256 { let mut x = region(g, About::Full, &[60], samples); (x.filters, x.bands) = (vec![], vec![]); regions.push(x); if regions.len() == 256 && g.percent(50) { let x = region(g, About::Plain, &[60], samples); regions.push(x); } },
        21 => { let k = g.pick(&[255, 256, 257]); while samples.len() < k { samples.push(Sample { rate: 44_100.0, channels: 1, frames: 1, kind: 2 }); } }
        22..=24 => {
            let rate = g.pick(&[768_000.0, past(768_000.0), 0.0, -0.0, -1.0, f32::NAN, f32::INFINITY, f32::MIN_POSITIVE]);
            samples.push(Sample { rate, channels: 1, frames: if g.percent(80) { 7 } else { 0 }, kind: 1 });
        }
        _ => writeln!(out, "W,{},{}", g.pick(&[0, 5, 8_193, 8_194]), hex(g.pick(&[f32::NAN, f32::INFINITY, f32::NEG_INFINITY, f32::MAX, 1.0]))).unwrap(),
    }
}

fn program(g: &mut Rng, about: About, keys: &[u8], out: &mut String) {
    table(g, out);
    let mut samples: Vec<Sample> = Vec::new();
    let mut room = 60_000u64;
    for _ in 0..g.weighted(&[4, 40, 35, 20]) {
        let s = sample(g, room);
        room -= s.channels * s.frames;
        samples.push(s);
    }
    let n = match about {
        About::Full => g.pick(&[31, 32, 33, 34, 36, 48]),
        About::Crowd => g.pick(&[30, 31, 32, 32, 33, 36]),
        About::Chokes => g.between(2, 8),
        About::Offs => g.between(4, 9),
        _ => g.weighted(&[1, 25, 25, 20, 15, 8, 6]) as u64,
    };
    let mut regions: Vec<Region> = (0..n).map(|_| region(g, about, keys, &samples)).collect();
    if about == About::Crowd && g.percent(60) { for r in &mut regions { steady(&mut r.fields, keys[0]); } }
    if about == About::Edge { edge(g, &mut samples, &mut regions, out); }
    for s in &samples { writeln!(out, "S,{},{},{},{},{}", hex(s.rate), s.channels, s.frames, s.kind, g.next()).unwrap(); }
    if about == About::Edge && g.percent(3) {
        let used: u64 = samples.iter().map(|s| s.channels * s.frames).sum();
        writeln!(out, "S,472C4400,1,{},1,7", (65_536u64 - used) + g.below(2)).unwrap();
    }
    for r in &regions {
        writeln!(out, "R,{}", r.fields.join(",")).unwrap();
        for p in &r.points { writeln!(out, "C,{p}").unwrap(); }
        for f in &r.filters { writeln!(out, "F,{f}").unwrap(); }
        for b in &r.bands { writeln!(out, "Q,{b}").unwrap(); }
    }
}

struct Run<'a> { about: About, keys: &'a [u8], live: Vec<u64>, made: u64, clock: Clock, odd: u64, table: bool }

fn input(g: &mut Rng, out: &mut String, k: u64, frame: u64, v: f32) { writeln!(out, "I,{k},{frame},{}", hex(if g.0 % 1_000 == 0 { g.odd() } else { v })).unwrap(); }

/// The gate: down, up, or turning at several frames.
fn gate(g: &mut Rng, out: &mut String, about: About) {
    if g.percent(4) { return writeln!(out, "I,1,-,-").unwrap(); }
    let turns = if about == About::Gates { g.below(9) } else { g.weighted(&[60, 20, 12, 8]) as u64 };
    let mut up = g.percent(60);
    let mut at = 0;
    for i in 0..=turns {
        let v = if up { g.pick(&[1.0, 1.0, 1.0, 0.5, f32::from_bits(1), f32::INFINITY]) } else { g.pick(&[0.0, 0.0, 0.0, -1.0, -0.0, f32::NAN]) };
        input(g, out, 1, at, v);
        up = !up;
        let far = if g.percent(50) { 6 } else { 50 };
        if i < turns { at = (at + g.between(1, far)).min(127); }
    }
}

fn inputs(g: &mut Rng, out: &mut String, run: &Run) {
    if run.about == About::Offs {
        if g.percent(70) { gate(g, out, run.about); }
        if g.percent(60) { input(g, out, 2, 0, [0.1, 0.9][(g.0 & 1) as usize]); }
        return;
    }
    if g.percent(if run.about == About::Gates { 75 } else { 45 }) { gate(g, out, run.about); }
    if g.percent(35) { let v = freq(g, run.keys, run.odd); input(g, out, 0, 0, v); if g.percent(20) { let at = g.below(128); let v = freq(g, run.keys, run.odd); input(g, out, 0, at, v); } }
    if g.percent(25) { let v = velocity(g, run.odd); input(g, out, 2, 0, v); if g.percent(20) { let at = g.below(128); let v = velocity(g, run.odd); input(g, out, 2, at, v); } }
    if g.percent(8) { let v = if g.percent(80) { g.real(-1.0, 2.0) } else { g.odd() }; input(g, out, 3, 0, v); for _ in 0..g.below(4) { let at = g.below(128); let v = if g.percent(run.odd) { g.odd() } else { g.real(-1.0, 1.0) }; input(g, out, 3, at, v); } }
    if g.percent(12) { let v = if g.percent(50) { g.real(0.0, 1_000.0) } else { g.odd() }; let at = if g.percent(70) { 0 } else { g.below(128) }; input(g, out, 4, at, v); }
    if g.percent(if run.about == About::Pitch { 40 } else { 10 }) { let v = match g.below(8) { 0 => g.odd(), 1 => g.pick(&[1.0, -1.0, 2.0, -2.0, 0.0, -0.0]), _ => g.real(-1.2, 1.2) }; input(g, out, 5, 0, v); }
    if g.percent(12) { let v = quality(g, run.table); input(g, out, 6, 0, v); if g.percent(20) { let at = g.below(128); let v = quality(g, run.table); input(g, out, 6, at, v); } }
    if g.percent(3) { writeln!(out, "I,{},-,-", g.below(7)).unwrap(); }
}
/// The kernel; seldom the sinc where its table is zero.
fn quality(g: &mut Rng, table: bool) -> f32 {
    match g.below(24) { 0 => g.odd(), 1 => g.pick(&[-1.0, 3.0, 0.5, 1.5, 0.499_999_97, 2.5]), 2 => 2.0, _ => g.below(2 + table as u64) as f32 }
}

fn make(g: &mut Rng, out: &mut String, run: &mut Run) {
    let bad = g.per_mille(25);
    let rate = if bad { g.pick(&[f32::from_bits(0x45F9_FFFF), past(192_000.0), f32::NAN, 0.0, -8_000.0, f32::INFINITY]) } else { voice_rate(g) };
    writeln!(out, "V,{}", hex(rate)).unwrap();
    if !bad && run.live.len() < 16 { run.made += 1; run.live.push(run.made); }
}

/// A call that is refused and goes on, or one just inside.
fn refused(g: &mut Rng, out: &mut String, run: &Run) {
    let v = g.pick(&run.live);
    match g.below(3) {
        0 => writeln!(out, "B,{v},0,{}", g.pick(&[0, 129, 1_000, u32::MAX])),
        1 => writeln!(out, "B,{v},{},{}", g.pick(&[(1u64 << 63) + 1, u64::MAX, 1 << 63]), g.pick(&[64, 0])),
        _ => writeln!(out, "V,{}", hex(g.pick(&[7_999.0, 192_001.0, f32::NAN]))),
    }
    .unwrap()
}

fn step(g: &mut Rng, out: &mut String, run: &mut Run, s: u64) {
    let churn = run.about == About::Voices;
    if run.live.is_empty() || g.percent(if churn { 15 } else { 2 }) { return make(g, out, run); }
    let first = run.about == About::Crowd && s < run.live.len() as u64;
    let i = if first { s as usize } else { g.below(run.live.len() as u64) as usize };
    let v = run.live[i];
    match if first { 99 } else { g.below(100) } {
        0 | 1 => writeln!(out, "Z,{v}").unwrap(),
        2..=3 => writeln!(out, "A,{v}").unwrap(),
        4 => refused(g, out, run),
        k if k == 5 || (churn && k < 16) => { writeln!(out, "D,{v}").unwrap(); run.live.remove(i); }
        k if churn && k < 22 => writeln!(out, "Z,{v}").unwrap(),
        _ => {
            if !first { inputs(g, out, run); }
            let frames = g.pick(&[1, 2, 3, 16, 64, 64, 127, 128, 128, 128, 128, g.0 % 128 + 1]);
            let last = g.percent(40);
            let t = run.clock.offset(g, frames, last);
            writeln!(out, "B,{v},{t},{frames}").unwrap();
            if g.percent(6) { writeln!(out, "A,{v}").unwrap(); }
        }
    }
}

/// Four notes of one voice leave a release, a start that waits and one that sounds; a second voice takes them all off on one frame.
/// The order in which that frame's offs act then decides whether a release starts. Some things are drawn otherwise.
fn ladder(g: &mut Rng) -> String {
    let mut out = String::new();
    let or = |g: &mut Rng, usual: &str, others: &[&'static str]| if g.percent(88) { usual.to_string() } else { g.pick(others).to_string() };
    // trigger, delay, lowest and highest velocity, position of the sequence, note polyphony
    let plan = [("2", "00000000", "127", "1", "-"), ("0", "3F800000", "127", "2", "-"), ("0", "00000000", "127", "3", "-"), ("1", "00000000", "63", "-", "-"), ("0", "00000000", "127", "5", "1")];
    for (trigger, delay, hivel, place, np) in plan {
        let trigger = or(g, trigger, &["0", "1", "2"]);
        let delay = or(g, delay, &["00000000", "3F800000"]);
        let hivel = or(g, hivel, &["63", "127"]);
        let place = or(g, place, &["1", "2", "3", "4", "5", "-"]);
        let length = if place == "-" { "-" } else { "5" };
        let np = or(g, np, &["-", "1", "2", "3"]);
        let mode = or(g, "1", &["0", "2", "3"]);
        writeln!(out, "R,-,60,60,0,{hivel},60,42C80000,00000000,0,0,-,{mode},0,-,-,00000000,00000000,00000000,42C80000,42C80000,{delay},00000000,00000000,00000000,42C80000,3F800000,00000000,{length},{place},-,-,1,-,1,3BC49BA6,{trigger},00000000,00000000,{np},-,43480000,C3480000,-,-,-,-,-").unwrap();
    }
    writeln!(out, "V,472C4400\nV,472C4400\nI,0,0,{}", hex(key_freq(60.0))).unwrap();
    for (note, vel) in [0.15, 0.15, 0.8, 0.15, 0.8].into_iter().enumerate() {
        let vel = if g.percent(88) { vel } else { 0.95 - vel };
        let frames = g.between(1, 128);
        let (v, up) = (1 + note / 4, note * 256);
        writeln!(out, "I,2,0,{}\nI,1,0,3F800000\nB,{v},{up},{frames}", hex(vel)).unwrap();
        if note < 3 { writeln!(out, "I,1,0,00000000\nB,{v},{},{frames}", up + 128).unwrap(); }
    }
    for v in [1, 1, 2, 1] { writeln!(out, "B,{v},{},{}", 1_100 + g.below(200), g.between(1, 128)).unwrap(); }
    out
}

pub fn script(g: &mut Rng) -> String {
    if g.percent(2) { return ladder(g); }
    let mut out = String::new();
    let about = ABOUT[g.weighted(&[9, 26, 15, 10, 12, 9, 9, 5, 2, 5, 14])];
    let keys: Vec<u8> = (0..g.between(1, 3)).map(|_| g.pick(&[36, 38, 42, 46, 60, 60, 69, 0, 127])).collect();
    program(g, about, &keys, &mut out);
    let mut run = Run { about, keys: &keys, live: vec![], made: 0, clock: Clock::new(g), odd: g.pick(&[0, 0, 0, 12]), table: out.starts_with('W') };
    let voices = match about { About::Crowd => 16, About::Voices => g.pick(&[2, 8, 16, 17, 18]), About::Chokes => g.between(1, 5), About::Offs => g.between(2, 3), _ => g.weighted(&[0, 60, 25, 15]) as u64 };
    for _ in 0..voices { make(g, &mut out, &mut run); }
    input(g, &mut out, 1, 0, 1.0);
    if about == About::Offs { input(g, &mut out, 0, 0, key_freq(keys[0] as f64)); } else if g.percent(92) { let f = freq(g, &keys[..1], 0); input(g, &mut out, 0, 0, f); }
    if g.percent(80) { let v = g.real(0.3, 1.0); input(g, &mut out, 2, 0, v); }
    if !run.table || g.percent(60) { let q = quality(g, run.table); input(g, &mut out, 6, 0, q); }
    let steps = match about { About::Crowd => g.between(18, 26), About::Full => g.between(6, 30), About::Edge => g.between(3, 15), _ => g.between(8, 60) };
    for s in 0..steps { step(g, &mut out, &mut run, s); }
    if g.percent(8) {
        // never made, or perhaps closed
        let v = g.pick(&[0, run.made + 1, u64::MAX, g.0 % run.made.max(1) + 1]);
        let l = g.pick(&["A,V", "Z,V", "D,V", "D,V\nD,V", "B,V,0,64", "B,V,0,0", "B,V,0,129"]);
        writeln!(out, "{}\nA,1", l.replace('V', &v.to_string())).unwrap();
    }
    out
}

/// Kits of two regions, as what differs from `Region::default` on the keys 60 to 62: chokes, loops and fades, polyphonies, sequences, filters, delays.
const KITS: [[&[(usize, &str)]; 2]; 6] = [
    [&[(GROUP, "1"), (GROUP + 1, "2")], &[(SAMPLE, "1"), (GROUP, "2"), (GROUP + 1, "1"), (GROUP + 2, "1"), (LOKEY, "62")]],
    [&[(SAMPLE, "1"), (LOOP_MODE, "2"), (LOOP, "40"), (LOOP + 1, "90"), (POLYPHONY, "1"), (GROUP + 2, "2"), (OFF_TIME, "3B03126F")], &[(LOOP_MODE, "3"), (LOOP, "5"), (LOOP + 1, "5"), (TRIGGER, "1")]],
    [&[(SAMPLE, "1"), (POLYPHONY + 1, "1"), (TRANSPOSE, "7")], &[(TRIGGER, "2"), (TRIGGER + 1, "41A00000"), (POLYPHONY, "2"), (OFFSET, "20")]],
    [&[(SEQ, "2"), (SEQ + 1, "1"), (VOLUME, "C0C00000")], &[(SAMPLE, "1"), (SEQ, "2"), (SEQ + 1, "2"), (VOLUME + 2, "C2480000"), (END, "30")]],
    [&[(DELAY_S, "3B83126F"), (DELAY + 1, "3B03126F"), (DELAY + 5, "3C23D70A"), (LOOP_MODE, "1")], &[(SAMPLE, "-"), (DELAY, "3B83126F"), (TRIGGER, "1"), (POLYPHONY, "1")]],
    [&[(TRIGGER, "3"), (DELAY + 4, "41200000"), (DELAY + 3, "3C23D70A")], &[(SAMPLE, "1"), (TRIGGER, "4"), (LOOP_MODE, "1"), (GROUP, "1"), (GROUP + 1, "0")]],
];
/// Events; `T` is the block's offset.
const EVENTS: [&str; 10] = [
    "I,1,0,3F800000\nB,1,T,64\n",
    "I,1,0,00000000\nB,1,T,128\n",
    "I,1,0,3F800000\nI,1,32,00000000\nB,1,T,64\n",
    "I,1,0,00000000\nI,1,32,3F800000\nB,1,T,64\n",
    "I,1,0,3F800000\nB,2,T,1\n",
    "I,1,0,00000000\nI,1,10,3F800000\nI,1,20,00000000\nI,1,30,3F800000\nB,2,T,128\n",
    "I,0,0,4392D7D8\nI,2,0,3F000000\nI,6,0,3F800000\nI,1,0,3F800000\nI,1,1,00000000\nI,1,2,3F800000\nB,2,T,64\n",
    "I,5,0,3F000000\nI,1,0,00000000\nB,2,T,64\n",
    "Z,1\nA,1\n",
    "D,2\nV,45FA0000\nI,1,0,3F800000\nB,3,T,64\n",
];
/// How many scripts there are of this many events.
pub fn short_count(length: u32) -> u64 { KITS.len() as u64 * (EVENTS.len() as u64).pow(length) }
/// Script k of them: every sequence of events over every kit.
pub fn short(k: u64, length: u32) -> String {
    let usual = "0,60,62,0,127,60,42C80000,00000000,0,0,-,0,0,-,-,00000000,00000000,00000000,42C80000,42C80000,00000000,00000000,00000000,00000000,42C80000,3A83126F,00000000,-,-,-,-,0,-,0,3BC49BA6,0,00000000,00000000,-,-,43480000,C3480000,-,-,-,-,-";
    let mut out = String::from("S,45FA0000,1,60,1,7\nS,46FA0000,2,400,1,9\n");
    let kit = k % KITS.len() as u64;
    for region in KITS[kit as usize] {
        let mut f: Vec<&str> = usual.split(',').collect();
        for (at, v) in region { f[*at] = v; }
        writeln!(out, "R,{}", f.join(",")).unwrap();
        if kit == 3 { out += "F,0,44FA0000,40400000,00000000,60,00000000,00000000\nQ,0,447A0000,3F800000,40C00000,00000000,00000000\n"; }
    }
    out += "V,45FA0000\nV,472C4400\nI,0,0,4382D10F\nI,2,0,3F800000\nI,6,0,00000000\n";
    let mut rest = k / KITS.len() as u64;
    for i in 0..length as u64 {
        out += &EVENTS[(rest % EVENTS.len() as u64) as usize].replace('T', &(i * 64).to_string());
        rest /= EVENTS.len() as u64;
    }
    // what is left waiting acts
    out + "I,1,0,00000000\nB,1,512,128\nA,1\n"
}

/// Whether the Rust would take seconds over a loop: an offset millions of loops behind it.
pub fn slow(script: &str) -> bool {
    script.lines().filter_map(|l| l.strip_prefix("R,")).any(|l| {
        let f: Vec<&str> = l.split(',').collect();
        let number = |k: usize| f.get(k).and_then(|v| v.parse::<u64>().ok());
        let (Some(a), Some(b), Some(offset)) = (number(LOOP), number(LOOP + 1), number(OFFSET)) else { return false };
        let end = number(END).map_or(b, |e| b.min(e)).max(a);
        f.get(LOOP_MODE).is_some_and(|m| m.ends_with('2') || m.ends_with('3')) && offset / (end + 1 - a) > 200_000
    })
}
