//! scripts PORT RUST KEEP (desk | block) COUNT [SEED] | (short | short_block) [LENGTH]: makes scripts, gives each to both listers, compares what they write.
//! scripts print (desk | block) SCRIPT_SEED: writes one script.
//! scripts store RUST (desk | block) TEXTS FOLDER [COUNT] [SEED]: writes a sample of scripts and the Rust's answers as FOLDER/stdin and FOLDER/stdout.
mod block;
mod cover;
mod damage;
mod desk;
mod rng;
mod store;
use cover::Cover;
use rng::{Rng, splitmix};
use std::io::{Read, Write};
use std::process::{Command, ExitCode, ExitStatus, Stdio};
use std::sync::Mutex;
use std::sync::atomic::{AtomicBool, AtomicU64, Ordering::Relaxed};
use std::sync::mpsc::{RecvTimeoutError, channel};
use std::time::{Duration, Instant};

const WORKERS: usize = 2;
const PATIENCE: Duration = Duration::from_secs(120);

#[derive(Clone, Copy, PartialEq)]
enum Set { Desk, Block, Short(u32), ShortBlock(u32) }
impl Set {
    fn desk(self) -> bool { matches!(self, Set::Desk | Set::Short(_)) }
    /// The script of a seed, and whether it is damaged, as one in nine is.
    fn script(self, seed: u64) -> (Vec<u8>, bool) {
        match self {
            Set::Short(length) => return (desk::short(seed, length).into_bytes(), false),
            Set::ShortBlock(length) => return (block::short(seed, length).into_bytes(), false),
            _ => {}
        }
        let g = &mut Rng(seed);
        loop {
            let text = if self == Set::Desk { desk::script(g) } else { block::script(g) };
            let damaged = g.below(9) == 0;
            let text = if damaged { damage::damage(g, text) } else { text.into_bytes() };
            // The port's listers read lines of up to 4,096 bytes: docs/DIFFERENCES.md.
            if text.split(|&c| c == b'\n').any(|l| l.len() > 4_096) { continue; }
            if self.desk() || !block::slow(&String::from_utf8_lossy(&text)) { return (text, damaged); }
        }
    }
}

/// Script in, text out. None: it did not end in time.
fn run(program: &str, script: &[u8]) -> Option<(Vec<u8>, ExitStatus)> {
    let mut child = Command::new(program).stdin(Stdio::piped()).stdout(Stdio::piped()).stderr(Stdio::null()).spawn().unwrap_or_else(|e| panic!("{program}: {e}"));
    let (mut stdin, mut stdout) = (child.stdin.take().unwrap(), child.stdout.take().unwrap());
    let (done, answer) = channel();
    std::thread::scope(|s| {
        // a lister that refuses a line stops reading: a broken pipe is no fault
        s.spawn(move || { let _ = stdin.write_all(script); });
        s.spawn(move || {
            let mut text = Vec::new();
            stdout.read_to_end(&mut text).unwrap();
            let _ = done.send(text);
        });
        let text = answer.recv_timeout(PATIENCE);
        if let Err(RecvTimeoutError::Timeout) = text { let _ = child.kill(); }
        let status = child.wait().unwrap();
        text.ok().map(|t| (t, status))
    })
}

/// The first line that differs and its first field that does, both counted from 1.
fn difference(a: &[u8], b: &[u8]) -> Option<(usize, usize, String, String)> {
    if a == b { return None; }
    let lines = |t: &[u8]| t.split_inclusive(|&c| c == b'\n').map(|l| String::from_utf8_lossy(l).into_owned()).collect::<Vec<_>>();
    let (a, b) = (lines(a), lines(b));
    let k = (0..).find(|&k| a.get(k) != b.get(k)).unwrap();
    let at = |t: &[String]| t.get(k).map_or("(nothing)".into(), |l| l.escape_default().to_string());
    let (x, y) = (at(&a), at(&b));
    let field = x.split(',').zip(y.split(',')).take_while(|(x, y)| x == y).count();
    Some((k + 1, field + 1, x, y))
}

struct Job { port: String, rust: String, keep: String, set: Set, count: u64, seed: u64 }
impl Job {
    fn script_seed(&self, i: u64) -> u64 { if let Set::Short(_) | Set::ShortBlock(_) = self.set { i } else { splitmix(self.seed ^ splitmix(i)) } }

    /// What is wrong with script i, if anything.
    fn one(&self, i: u64, cover: &mut Cover) -> Option<String> {
        let seed = self.script_seed(i);
        let (script, damaged) = self.set.script(seed);
        let (rust, port) = (run(&self.rust, &script), run(&self.port, &script));
        let what = match (rust, port) {
            (None, _) => "the Rust did not end".to_string(),
            (_, None) => "the port did not end".to_string(),
            (Some((rust, rs)), Some((port, ps))) => {
                cover.script(self.set.desk(), &script, &rust);
                cover.add("scripts, damaged", damaged as u64);
                if !ps.success() { cover.add("port's status not 0", 1); }
                match difference(&rust, &port) {
                    Some((n, field, r, p)) => format!("line {n} of the outputs differs in field {field}\n  Rust {r}\n  port {p}\n  Rust's {rs}, port's {ps}"),
                    None if !rs.success() => format!("the Rust failed: {rs}"),
                    None if ps.code().is_none() => format!("the port failed: {ps}"),
                    None => return None,
                }
            }
        };
        let file = format!("{}/different.{seed}.txt", self.keep);
        std::fs::write(&file, &script).unwrap();
        Some(format!("script {i}, its seed {seed}, kept as {file}: {what}"))
    }

    fn all(&self) -> (Cover, Vec<String>) {
        let (next, stop) = (AtomicU64::new(0), AtomicBool::new(false));
        let total = Mutex::new((Cover::default(), Vec::new()));
        std::thread::scope(|s| {
            for _ in 0..WORKERS {
                s.spawn(|| {
                    let mut cover = Cover::default();
                    while !stop.load(Relaxed) {
                        let i = next.fetch_add(1, Relaxed);
                        if i >= self.count { break; }
                        if let Some(what) = self.one(i, &mut cover) {
                            stop.store(true, Relaxed);
                            total.lock().unwrap().1.push(what);
                        }
                    }
                    total.lock().unwrap().0.join(&cover);
                });
            }
        });
        total.into_inner().unwrap()
    }
}

fn main() -> ExitCode {
    let args: Vec<String> = std::env::args().skip(1).collect();
    let args: Vec<&str> = args.iter().map(|a| a.as_str()).collect();
    let usage = "desk | block COUNT [SEED], short | short_block [LENGTH], print desk | block SCRIPT_SEED, store RUST desk | block TEXTS FOLDER [COUNT] [SEED]";
    let set = |name: &str| match name { "desk" => Set::Desk, "block" => Set::Block, _ => panic!("{usage}") };
    let number = |k: usize, other: u64| args.get(k).map_or(other, |v| v.parse().expect(usage));
    if args.first() == Some(&"print") {
        std::io::stdout().write_all(&set(args[1]).script(number(2, 0)).0).unwrap();
        return ExitCode::SUCCESS;
    }
    if args.first() == Some(&"store") {
        store::store(args[1], set(args[2]), args[3], args[4], number(5, 0), number(6, 1));
        return ExitCode::SUCCESS;
    }
    let [port, rust, keep, name, ..] = args[..] else { panic!("{usage}") };
    let (set, count, seed) = match name {
        "short" => { let n = number(4, 3) as u32; (Set::Short(n), desk::short_count(n), 0) }
        "short_block" => { let n = number(4, 3) as u32; (Set::ShortBlock(n), block::short_count(n), 0) }
        _ => (set(name), number(4, 1_000), number(5, 1)),
    };
    let job = Job { port: port.into(), rust: rust.into(), keep: keep.into(), set, count, seed };
    let start = Instant::now();
    let (cover, wrong) = job.all();
    let seconds = start.elapsed().as_secs_f64();
    cover.print(set);
    for w in &wrong { println!("DIFFERENT {w}"); }
    let [scripts, lines, blocks, frames] = ["scripts", "lines", "blocks", "frames"].map(|k| cover.get(k));
    println!("{name}, seed {seed}: {scripts} scripts, {blocks} blocks, {frames} frames, {lines} lines, {} different, {seconds:.1} s", wrong.len());
    if wrong.is_empty() { ExitCode::SUCCESS } else { ExitCode::FAILURE }
}
