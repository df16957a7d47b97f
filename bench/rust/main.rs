//! Runs both sides of the benchmark in turn, each run a process of its own, and prints tables.
//!   voices PORT WORK table [ROUNDS [LOAD]] | growth [ROUNDS] | counts | shares
//!   voices list
//!   voices rust LOAD WARM TIMED CHECKED            the Rust's side of one load
//!   voices words LOAD WARM TIMED CHECKED FRAMES    the port's standard input for it
mod load;
mod side;

use load::{Load, Rounds, growth, loads, named, sized};
use std::fs::File;
use std::io::Write;
use std::process::{Command, Output, exit};

fn arg(k: usize) -> Option<String> { std::env::args().nth(k) }
fn number(k: usize) -> Option<u32> { arg(k).and_then(|a| a.parse().ok()) }
fn load_at(k: usize, frames: usize) -> Load {
    let l = arg(k).and_then(|n| named(&n)).unwrap_or_else(|| { eprintln!("no such load; `list` prints them"); exit(2) });
    match number(frames) { Some(n) if n as usize != l.frames => sized(&l, n as usize), _ => l }
}
fn rounds_at(k: usize) -> Rounds { Rounds { warm: number(k).unwrap_or(4), timed: number(k + 1).unwrap_or(1), checked: number(k + 2).unwrap_or(1) } }

/// What a side printed: five numbers that must agree, and its time in microseconds.
type Printed = (Vec<u64>, f64);
fn printed(out: Vec<u8>) -> Printed {
    let n: Vec<u64> = String::from_utf8_lossy(&out).split_whitespace().map(|w| w.parse().expect("a number")).collect();
    assert_eq!(n.len(), 7, "a side refused its load or ended early");
    (n[..5].to_vec(), (n[6] - n[5]) as f64)
}
struct Sides { port: String, work: String, table: Vec<f32> }
impl Sides {
    /// Runs the port, or a tool over it, on a load.
    fn over(&self, c: &mut Command, l: &Load, r: Rounds) -> Output {
        let path = format!("{}/load", self.work);
        File::create(&path).and_then(|mut f| f.write_all(&l.words(r, &self.table))).expect("a load file");
        c.stdin(File::open(&path).expect("a load file")).output().expect("the port's side")
    }
    fn port(&self, l: &Load, r: Rounds) -> Printed { printed(self.over(&mut Command::new(&self.port), l, r).stdout) }
    fn rust(&self, l: &Load, r: Rounds) -> Printed {
        let n = [r.warm, r.timed, r.checked, l.frames as u32].map(|n| n.to_string());
        printed(Command::new(std::env::current_exe().unwrap()).arg("rust").arg(&l.name).args(n).output().expect("the Rust's side").stdout)
    }
    /// Microseconds a block of both sides by round, and whether every sum and count agreed.
    fn measure(&self, l: &Load, rounds: u32) -> (Vec<(f64, f64)>, bool) {
        let (r, blocks) = (l.usual(), l.rounds as f64 * l.voices as f64);
        let mut equal = self.port(l, r.all()).0 == self.rust(l, r.all()).0;
        let times = (0..rounds).map(|k| {
            let (p, q) = if k % 2 == 0 { let p = self.port(l, r); (p, self.rust(l, r)) } else { let q = self.rust(l, r); (self.port(l, r), q) };
            equal &= p.0 == q.0;
            (p.1 / blocks, q.1 / blocks)
        }).collect();
        (times, equal)
    }
}
impl Sides {
    /// Instructions of a whole run.
    fn instructions(&self, l: &Load, r: Rounds) -> f64 {
        let mut c = Command::new("valgrind");
        // copies by the vector registers: `rep movsb` would count each byte as an instruction
        c.env("GLIBC_TUNABLES", "glibc.cpu.x86_rep_movsb_threshold=100000000:glibc.cpu.x86_rep_stosb_threshold=100000000");
        c.arg("--tool=callgrind").arg(format!("--callgrind-out-file={}/callgrind.{}", self.work, l.name)).arg("--main-stacksize=16000000").arg(&self.port);
        let said = String::from_utf8_lossy(&self.over(&mut c, l, r).stderr).into_owned();
        said.lines().find_map(|l| l.split("Collected : ").nth(1)).and_then(|n| n.trim().parse().ok()).expect("callgrind's count")
    }
    /// Calls and bytes of copies between the two times, then calls by size.
    fn copies(&self, l: &Load, r: Rounds) -> Vec<(u64, u64)> {
        let said = self.over(Command::new(&self.port).env("LD_PRELOAD", format!("{}/libcopies.so", self.work)), l, r).stderr;
        String::from_utf8_lossy(&said).lines().map(|l| l.split_once(' ').map(|(a, b)| (a.parse().unwrap(), b.parse().unwrap())).expect("two numbers")).collect()
    }
}
/// Time, the least of seven runs, instructions and copies a block.
fn counts(s: &Sides) {
    println!("| Load | Port µs | Instructions | Copies | Bytes copied | Copies of 2,048 bytes and more: bytes × times |\n|---|---|---|---|---|---|");
    // a block of no frames is turned back by the first test: what passing session and voice in and out costs by itself
    let refused = Load { name: "refused".into(), frames: 0, ..named("idle").expect("a load") };
    let names = ["idle", "idle-480", "hermite-mono", "silent-32", "sinc-stereo-32", "edges-16x32-silent", "held-16x32-silent"];
    for l in std::iter::once(refused).chain(names.map(|n| named(n).expect("a load"))) {
        let r = Rounds { warm: 4, timed: if l.voices == 1 { 20 } else { 10 }, checked: 1 };
        let blocks = r.timed as f64 * l.voices as f64;
        let i = (s.instructions(&l, r) - s.instructions(&l, Rounds { timed: 0, ..r })) / blocks;
        let c = s.copies(&l, r);
        let least = (0..7).map(|_| s.port(&l, l.usual()).1).fold(f64::MAX, f64::min) / (l.rounds as f64 * l.voices as f64);
        let mut by_size = c[1..].to_vec();
        by_size.sort_by_key(|c| std::cmp::Reverse(c.0 * c.1));
        let sizes: Vec<String> = by_size.iter().map(|c| format!("{} × {}", c.0, short(c.1 as f64 / blocks))).collect();
        println!("| {} | {} | {i:.0} | {} | {:.0} | {} |", l.name, short(least), short(c[0].0 as f64 / blocks), c[0].1 as f64 / blocks, sizes.join(", "));
    }
}
/// Where the port's time goes, by samples of its functions.
fn shares(s: &Sides) {
    println!("| Load | Samples | Share of each function, % |\n|---|---|---|");
    let data = format!("{}/perf", s.work);
    for l in ["idle", "idle-480", "hermite-32-biquads", "held-16x32-sinc", "edges-16x32-sinc", "edges-16x32-silent"].map(|n| named(n).expect("a load")) {
        s.over(Command::new("perf").args(["record", "-q", "-e", "cpu-clock:u", "-F", "4000", "-o", &data]).arg(&s.port), &l, Rounds { timed: l.rounds * 8, ..l.usual() });
        let report = Command::new("perf").args(["report", "-i", &data, "--stdio", "-q", "-F", "sample,symbol"]).output().expect("perf").stdout;
        let mut by_name: Vec<(u64, String)> = String::from_utf8_lossy(&report).lines().filter_map(|l| {
            let (n, name) = l.trim().split_once(' ')?;
            let name = name.trim().trim_start_matches("[.] ").trim();
            Some((n.parse().ok()?, if name.contains("mem") { "copying and clearing".into() } else { name.to_string() }))
        }).fold(Vec::new(), |mut v: Vec<(u64, String)>, (n, name)| {
            match v.iter_mut().find(|x| x.1 == name) { Some(x) => x.0 += n, None => v.push((n, name)) }
            v
        });
        by_name.sort_by_key(|x| std::cmp::Reverse(x.0));
        let all: u64 = by_name.iter().map(|x| x.0).sum();
        let text: Vec<String> = by_name.iter().filter(|x| x.0 * 200 >= all).map(|(n, name)| format!("{name} {:.1}", *n as f64 * 100.0 / all as f64)).collect();
        println!("| {} | {all} | {} |", l.name, text.join(", "));
    }
}
fn median(v: impl Iterator<Item = f64>) -> (f64, f64, f64) {
    let mut v: Vec<f64> = v.collect();
    v.sort_by(f64::total_cmp);
    (v[v.len() / 2], v[0], v[v.len() - 1])
}
fn short(x: f64) -> String { if x < 10.0 { format!("{x:.2}") } else if x < 100.0 { format!("{x:.1}") } else { format!("{x:.0}") } }
fn yes(b: bool) -> &'static str { if b { "equal" } else { "DIFFERENT" } }

fn table(s: &Sides, rounds: u32, only: Option<String>) -> bool {
    println!("| Load | Frames | Port µs | Rust µs | Port / Rust | Least to most | Outputs |\n|---|---|---|---|---|---|---|");
    let mut all = true;
    for frames in [128, 64, 16, 1] {
        for l in loads() {
            // a block of one frame has no edge inside it
            if only.as_ref().is_some_and(|o| *o != l.name) || (frames == 1 && l.choke) { continue; }
            let l = if frames == 128 { l } else { sized(&l, frames) };
            let (t, equal) = s.measure(&l, rounds);
            let (p, q, (m, lo, hi)) = (median(t.iter().map(|t| t.0)).0, median(t.iter().map(|t| t.1)).0, median(t.iter().map(|t| t.0 / t.1)));
            println!("| {} | {frames} | {} | {} | {m:.2} | {lo:.2} to {hi:.2} | {} |", l.name, short(p), short(q), yes(equal));
            all &= equal;
        }
    }
    all
}
/// Costs by size, the least of the rounds, and what each further unit of it costs.
fn grown(s: &Sides, rounds: u32) -> bool {
    let mut all = true;
    for (what, by_size) in growth() {
        println!("\n| {what} | Port µs | each more, ns | Rust µs | each more, ns | Outputs |\n|---|---|---|---|---|---|");
        let mut last: Option<(f64, f64, f64)> = None;
        for l in by_size {
            let size: f64 = l.name.rsplit(' ').next().and_then(|n| n.parse().ok()).expect("a size");
            let (t, equal) = s.measure(&l, rounds);
            let (p, q) = (median(t.iter().map(|t| t.0)).1, median(t.iter().map(|t| t.1)).1);
            let more = |was: f64, now: f64, from: f64| format!("{:.0}", (now - was) * 1000.0 / (size - from));
            let (a, b) = last.map_or((String::new(), String::new()), |(n, x, y)| (more(x, p, n), more(y, q, n)));
            println!("| {size} | {} | {a} | {} | {b} | {} |", short(p), short(q), yes(equal));
            last = Some((size, p, q));
            all &= equal;
        }
    }
    all
}
fn main() {
    match arg(1).as_deref() {
        Some("rust") => println!("{}", side::run(&load_at(2, 6), rounds_at(3))),
        Some("words") => {
            let l = load_at(2, 6);
            std::io::stdout().write_all(&l.words(rounds_at(3), side::bound(&l).sinc_values())).expect("written");
        }
        Some("list") => for l in loads() { println!("{}", l.name) },
        Some(port) => {
            let s = Sides { port: port.into(), work: arg(2).expect("a folder"), table: side::bound(&loads()[0]).sinc_values().to_vec() };
            let rounds = number(4).unwrap_or(11);
            let equal = match arg(3).as_deref() {
                Some("growth") => grown(&s, rounds),
                Some("counts") => { counts(&s); true }
                Some("shares") => { shares(&s); true }
                _ => table(&s, rounds, arg(5)),
            };
            exit(!equal as i32);
        }
        None => exit(2),
    }
}
