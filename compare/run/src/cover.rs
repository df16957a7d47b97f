//! How often each thing that a script can use was used: counted from the scripts and from what the Rust wrote for them.
use crate::{Set, block};
use std::collections::{BTreeMap, BTreeSet};

#[derive(Default)]
pub struct Cover { counts: BTreeMap<String, u64>, most: BTreeMap<&'static str, u64>, sizes: BTreeSet<u64>, rates: BTreeSet<Vec<u8>> }

fn number(f: Option<&&[u8]>) -> u64 { f.unwrap_or(&&b""[..]).iter().fold(0u64, |v, c| v.wrapping_mul(10).wrapping_add((c & 15) as u64)) }
fn fields(line: &[u8]) -> Vec<&[u8]> { line.trim_ascii_end().split(|&c| c == b',').collect() }

/// Fields of an R line whose values are counted one by one, and those that are counted where they are not as here.
const VALUES: [(&str, usize, u32); 8] = [("loop mode", block::LOOP_MODE, 4), ("loop source", 12, 4), ("off mode", 33, 3), ("trigger", block::TRIGGER, 5), ("note polyphony", 38, 4), ("polyphony", 39, 4), ("sequence of", block::SEQ, 5), ("gain curve", 46, 2)];
const DESK_VALUES: [(&str, usize, u32); 5] = [("loop mode", 5, 4), ("trigger", 6, 5), ("note polyphony", 9, 4), ("polyphony", 10, 4), ("sequence of", 11, 5)];
const OTHER: [(&str, usize, &str); 27] = [
    ("lowest velocity", 3, "0"), ("highest velocity", 4, "127"), ("keytrack", 6, "42C80000"), ("tune", 7, "00000000"), ("transpose", 8, "0"), ("offset", block::OFFSET, "0"), ("end", block::END, "-"), ("loop points", block::LOOP, "-"),
    ("volume", 15, "00000000"), ("random volume", 16, "00000000"), ("pan", 17, "00000000"), ("width", 18, "42C80000"), ("velocity track", 19, "42C80000"), ("envelope delay", 20, "00000000"), ("attack", 21, "00000000"), ("hold", 22, "00000000"),
    ("decay", 23, "00000000"), ("sustain", 24, "42C80000"), ("release", 25, "3A83126F"), ("start", 26, "00000000"), ("random range", 29, "-"), ("off_by", 32, "-"), ("off time", 34, "3BC49BA6"), ("release decay", 36, "00000000"), ("delay", 37, "00000000"),
    ("bend up", 40, "43480000"), ("bend down", 41, "C3480000"),
];
const INPUTS: [&str; 7] = ["freq", "gate", "vel", "amp", "seed", "bend", "quality"];
const STEPS: [&str; 4] = ["back", "to the same", "on by the block", "ahead"];

/// What the Rust wrote, by steps.
#[derive(Default)]
struct Answers { refused: BTreeMap<u64, u64>, sounds: BTreeSet<u64>, started: BTreeSet<u64> }

impl Cover {
    pub fn add(&mut self, what: &str, n: u64) { if n > 0 { *self.counts.entry(what.into()).or_default() += n; } }
    fn most(&mut self, what: &'static str, n: u64) {
        let m = self.most.entry(what).or_default();
        *m = (*m).max(n);
    }
    pub fn join(&mut self, other: &Cover) {
        for (k, n) in &other.counts { self.add(k, *n); }
        for (k, n) in &other.most { self.most(k, *n); }
        self.sizes.extend(&other.sizes);
        self.rates.extend(other.rates.iter().cloned());
    }
    pub fn get(&self, what: &str) -> u64 { self.counts.get(what).copied().unwrap_or(0) }

    /// One script and what the Rust wrote for it.
    pub fn script(&mut self, desk: bool, script: &[u8], out: &[u8]) {
        self.add("scripts", 1);
        let answers = self.answers(out);
        self.calls(desk, script, &answers);
        self.regions(desk, script, &answers.started);
    }

    fn answers(&mut self, out: &[u8]) -> Answers {
        let mut a = Answers::default();
        let (mut marked, mut released) = (0, 0);
        for l in out.split_inclusive(|&c| c == b'\n') {
            self.add("lines", 1);
            let f = fields(l);
            match f[0] {
                b"K" if f.len() == 13 => {
                    self.add("record lines", 1);
                    a.started.insert(number(f.get(4)));
                    released += (f[9] == b"0") as u64;
                    marked += (f[11] == b"1") as u64;
                    self.add("record lines: off time waiting", (f[12] != b"-") as u64);
                }
                b"T" => {
                    self.most("records", number(f.get(2)));
                    self.add("steps with 512 records", (number(f.get(2)) == 512) as u64);
                    self.most("held", number(f.get(3)));
                }
                b"V" => {
                    let (players, dropped) = (number(f.get(3)), number(f.get(4)));
                    self.most("players", players);
                    self.add("steps with 32 players", (players == 32) as u64);
                    self.add("steps after a dropped start", (dropped > 0) as u64);
                    self.most("dropped", dropped);
                }
                b"E" => {
                    self.add(&format!("refusal {:2}", number(f.get(2))), 1);
                    a.refused.insert(number(f.get(1)), number(f.get(2)));
                }
                b"A" => self.add(if f.get(2) == Some(&&b"1"[..]) { "asked: finished" } else { "asked: not finished" }, 1),
                b"L" | b"R" => if self.audio(&f[2..]) { a.sounds.insert(number(f.get(1))); }
                _ => {}
            }
        }
        self.add("record lines: marked", marked);
        self.add("record lines: started by a release", released);
        self.add("scripts with a marked record", (marked > 0) as u64);
        self.add("scripts with a release started", (released > 0) as u64);
        a
    }

    /// Whether anything sounds.
    fn audio(&mut self, values: &[&[u8]]) -> bool {
        let count = |test: &dyn Fn(&[u8]) -> bool| values.iter().filter(|v| test(v)).count() as u64;
        let sound = count(&|v| v != b"00000000" && v != b"80000000");
        self.add("samples not zero", sound);
        self.add("samples NaN", count(&|v| v == b"7FC00000"));
        self.add("samples infinite", count(&|v| v.ends_with(b"F800000") && (v[0] == b'7' || v[0] == b'F')));
        sound > 0
    }

    /// The calls that were made: blocks with what they were lent, voices, resets and closes.
    fn calls(&mut self, desk: bool, script: &[u8], a: &Answers) {
        let mut inputs: [Option<[u32; 128]>; 7] = [None; 7];
        let (mut step, mut live, mut clock) = (0, 0u64, None);
        for (i, l) in script.split(|&c| c == b'\n').enumerate() {
            let refusal = a.refused.get(&(i as u64 + 1));
            if refusal.is_some_and(|n| desk || !(5..=9).contains(n)) { return; }
            let f = fields(l);
            if matches!(f[0], b"B" | b"A" | b"Z" | b"D") { step += 1; }
            if refusal.is_some() { continue; }
            match f[0] {
                b"V" => { live += 1; self.most("live voices", live); self.rates.insert(f[1].to_vec()); }
                b"Z" => self.add("resets", 1),
                b"D" => { live = live.saturating_sub(1); self.add("closes", 1); }
                b"I" if f.len() == 4 && f[1].len() == 1 => {
                    let at = (f[1][0] & 15) as usize % 7;
                    inputs[at] = if f[2] == b"-" { None } else { let mut v = inputs[at].unwrap_or([0; 128]); v[number(f.get(2)) as usize..].fill(bits(f[3])); Some(v) };
                }
                b"B" => {
                    let (t, n) = (number(f.get(2)), number(f.get(3)));
                    self.add("blocks", 1);
                    self.add("frames", n);
                    self.sizes.insert(n);
                    if let Some((was, frames)) = clock { self.add(&format!("offset {}", STEPS[if t < was { 0 } else if t == was { 1 } else if t == was + frames { 2 } else { 3 }]), 1); }
                    clock = Some((t, n));
                    self.add("blocks with 16 live voices", (live == 16) as u64);
                    if !desk { self.lent(&inputs, n as usize, a.sounds.contains(&step)); }
                }
                _ => {}
            }
        }
    }

    fn lent(&mut self, inputs: &[Option<[u32; 128]>; 7], frames: usize, sounds: bool) {
        for (name, input) in INPUTS.iter().zip(inputs) {
            let Some(v) = input else { self.add(&format!("blocks without {name}"), 1); continue };
            self.add(&format!("blocks with {name}"), 1);
            let odd = v[..frames].iter().any(|b| { let x = f32::from_bits(*b); !x.is_finite() || x.is_subnormal() });
            self.add(&format!("blocks with a NaN, an infinity or a subnormal as {name}"), odd as u64);
        }
        if let Some(g) = inputs[1] {
            let turns = g[..frames].windows(2).filter(|w| (f32::from_bits(w[0]) > 0.0) != (f32::from_bits(w[1]) > 0.0)).count();
            self.add(&format!("blocks whose gate turns inside {}", ["0 times", "once", "twice", "three times or more"][turns.min(3)]), 1);
        }
        if !sounds { return; }
        self.add("blocks with sound", 1);
        let kernel = match inputs[6].map(|q| q[0]) { None => "none".into(), Some(b @ (0 | 0x3F80_0000 | 0x4000_0000)) => f32::from_bits(b).to_string(), _ => "other".into() };
        self.add(&format!("blocks with sound, quality {kernel}"), 1);
        self.add("blocks with sound, bent", inputs[5].is_some_and(|b| f32::from_bits(b[0]) != 0.0) as u64);
        self.add("blocks with sound and an amp that is not 1", inputs[3].is_some_and(|b| b[..frames].iter().any(|v| *v != 0x3F80_0000)) as u64);
    }

    /// What the regions that started are like.
    fn regions(&mut self, desk: bool, script: &[u8], started: &BTreeSet<u64>) {
        let mut samples: Vec<&[u8]> = Vec::new();
        let mut at = 0;
        let mut used = [0u64; 3];
        for l in script.split(|&c| c == b'\n') {
            let f = fields(l);
            match f[0] {
                b"S" => samples.push(f.get(2).unwrap_or(&&b""[..])),
                b"R" => { at += 1; used = [0; 3]; if started.contains(&(at - 1)) { self.region(desk, &f[1..], &samples); } }
                b"F" | b"Q" | b"C" if !desk && started.contains(&(at.max(1) - 1)) => {
                    let (k, name) = match f[0] { b"F" => (0, format!("started: filter kind {:2}", number(f.get(1)))), b"Q" => (1, format!("started: band kind {}", number(f.get(1)))), _ => (2, "started: velocity points".into()) };
                    used[k] += 1;
                    self.add(&name, 1);
                    self.add("started: six filters or six bands", (k < 2 && used[k] == 6) as u64);
                    self.add("started: more than six filters and bands", (k < 2 && used[0] + used[1] == 7) as u64);
                    self.add("started: 128 velocity points", (k == 2 && used[2] == 128) as u64);
                }
                _ => {}
            }
        }
        self.add("scripts with a sinc table", (!desk && script.starts_with(b"W,0,3F800000\nW,1,")) as u64);
    }

    fn region(&mut self, desk: bool, f: &[&[u8]], samples: &[&[u8]]) {
        self.add("regions started", 1);
        for (name, k, n) in if desk { &DESK_VALUES[..] } else { &VALUES } {
            let v = f.get(*k).copied().unwrap_or(b"");
            let most = v != b"-" && number(Some(&v)) >= *n as u64;
            self.add(&format!("started: {name} {}", if most { "more".into() } else if v == b"-" { "-".into() } else { number(Some(&v)).to_string() }), 1);
        }
        if desk { return self.add(if f[0].len() == 1 && f[0] != b"-" { "started: a sample" } else { "started: silence" }, 1); }
        let source = if f[0] == b"-" { None } else { samples.get(number(f.first()) as usize) };
        self.add(match source { Some(c) if **c == *b"2" => "started: stereo", Some(_) => "started: mono", None => "started: silence" }, 1);
        for (name, k, usual) in OTHER { if f.get(k) != Some(&usual.as_bytes()) { self.add(&format!("started: {name} not as usual"), 1); } }
    }

    /// Everything that the paper has and a comparison ought to use.
    fn wanted(desk: bool) -> Vec<String> {
        let mut w: Vec<String> = (1..=10).filter(|n| *n != 8 && !(desk && *n == 4)).map(|n| format!("refusal {n:2}")).collect();
        for (name, _, n) in if desk { &DESK_VALUES[..] } else { &VALUES } {
            for v in (*name == "sequence of") as u32..*n { w.push(format!("started: {name} {v}")); }
            if name.contains("sequence") || name.contains("polyphony") || name.contains("curve") { w.push(format!("started: {name} -")); }
        }
        for s in STEPS { w.push(format!("offset {s}")); }
        for s in ["resets", "closes", "record lines: marked", "record lines: off time waiting", "record lines: started by a release", "steps with 512 records", "blocks with 16 live voices", "scripts, damaged", "started: silence"] { w.push(s.into()); }
        if desk { w.push("started: a sample".into()); return w; }
        for k in 0..13 { w.push(format!("started: filter kind {k:2}")); }
        for k in 0..3 { w.push(format!("started: band kind {k}")); }
        for s in ["started: six filters or six bands", "started: more than six filters and bands", "started: 128 velocity points", "started: velocity points", "started: mono", "started: stereo", "scripts with a sinc table", "steps with 32 players", "steps after a dropped start", "asked: finished", "asked: not finished", "blocks with sound, bent", "blocks with sound and an amp that is not 1"] { w.push(s.into()); }
        for (name, _, _) in OTHER { w.push(format!("started: {name} not as usual")); }
        for name in INPUTS { for s in ["blocks with", "blocks without", "blocks with a NaN, an infinity or a subnormal as"] { w.push(format!("{s} {name}")); } }
        for t in ["0 times", "once", "twice", "three times or more"] { w.push(format!("blocks whose gate turns inside {t}")); }
        for q in ["none", "0", "1", "2", "other"] { w.push(format!("blocks with sound, quality {q}")); }
        w
    }

    /// The table; of the generated scripts also what none of them used.
    pub fn print(&self, set: Set) {
        for (k, n) in &self.counts { println!("  {k:<58}{n:>14}"); }
        for (k, n) in &self.most { println!("  most {k:<53}{n:>14}"); }
        println!("  {:<58}{:>14}", "block sizes used, of 1 to 128", self.sizes.len());
        println!("  {:<58}{:>14}", "different voice rates", self.rates.len());
        if !matches!(set, Set::Desk | Set::Block) { return; }
        for k in Cover::wanted(set.desk()).iter().filter(|k| self.get(k) == 0) { println!("  NEVER {k}"); }
    }
}

fn bits(v: &[u8]) -> u32 { v.iter().fold(0, |n, c| n << 4 | (*c as char).to_digit(16).unwrap_or(0)) }
