//! The stored sample: scripts written for the rules, then small generated ones; all parted by lines `=`, and what the Rust answers to each,
//! parted likewise.
use crate::cover::Cover;
use crate::{Set, run, splitmix};

/// Generated scripts above these sizes are passed over: a sample is small.
const SCRIPT: usize = 3_000;
const ANSWER: usize = 3_000;

/// The scripts of a text, each with the answer that is written for it, where the Rust's is another. A line that begins with `#` is a comment,
/// one that begins with `! ` a line of the answer.
fn written(text: &str) -> Vec<(Vec<u8>, Option<Vec<u8>>)> {
    let lines: Vec<&str> = text.lines().filter(|l| !l.starts_with('#')).collect();
    let join = |ls: Vec<&str>| ls.iter().flat_map(|l| l.bytes().chain([b'\n'])).collect::<Vec<u8>>();
    let part = |ls: &[&str]| {
        let own = join(ls.iter().filter_map(|l| l.strip_prefix("! ")).collect());
        (join(ls.iter().filter(|l| !l.starts_with('!')).copied().collect()), (!own.is_empty()).then_some(own))
    };
    lines.split(|l| *l == "=").map(part).collect()
}

/// A script that can stand between parting lines.
fn fits(script: &[u8]) -> bool { script.len() <= SCRIPT && script.ends_with(b"\n") && !script.starts_with(b"=\n") && !script.windows(3).any(|w| w == b"\n=\n") }

/// Writes FOLDER/stdin and FOLDER/stdout: all scripts of the file `texts`, and `count` generated ones.
pub fn store(rust: &str, set: Set, texts: &str, folder: &str, count: u64, seed: u64) {
    let answer = |script: &[u8]| run(rust, script).map(|(text, status)| { assert!(status.success(), "the Rust failed"); text }).expect("the Rust did not end");
    let mut cover = Cover::default();
    let mut parts: Vec<(Vec<u8>, Vec<u8>)> = Vec::new();
    for (script, own) in written(&std::fs::read_to_string(texts).expect(texts)) {
        let text = own.unwrap_or_else(|| answer(&script));
        cover.script(set.desk(), &script, &text);
        parts.push((script, text));
    }
    let by_hand = parts.len();
    for i in 0.. {
        if parts.len() as u64 >= by_hand as u64 + count { break; }
        let (script, damaged) = set.script(splitmix(seed ^ splitmix(i)));
        if !fits(&script) { continue; }
        let text = answer(&script);
        if text.len() > ANSWER { continue; }
        cover.script(set.desk(), &script, &text);
        cover.add("scripts, damaged", damaged as u64);
        parts.push((script, text));
    }
    let join = |part: fn(&(Vec<u8>, Vec<u8>)) -> &Vec<u8>| parts.iter().map(|p| part(p).as_slice()).collect::<Vec<_>>().join(&b"=\n"[..]);
    std::fs::write(format!("{folder}/stdin"), join(|p| &p.0)).unwrap();
    std::fs::write(format!("{folder}/stdout"), join(|p| &p.1)).unwrap();
    cover.print(set);
    println!("{folder}: {by_hand} scripts as written, {count} generated");
}
