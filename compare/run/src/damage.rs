//! Damaged copies of good scripts.
use crate::rng::Rng;

const FIELDS: [&[u8]; 22] = [
    b"", b"-", b"--", b"-1", b"0", b"1", b"+1", b" 1", b"1 ", b"1.0", b"127", b"128", b"255", b"256", b"4294967295", b"4294967296", b"18446744073709551615",
    b"18446744073709551616", b"000000000000000000000000000000001", b"7F800001", b"7fc00000", b"3F80000",
];

/// The bounds of a random line, its newline left out.
fn line(g: &mut Rng, t: &[u8]) -> (usize, usize) {
    let at = g.below(t.len() as u64 + 1) as usize;
    let from = t[..at].iter().rposition(|&c| c == b'\n').map_or(0, |k| k + 1);
    let to = t[at..].iter().position(|&c| c == b'\n').map_or(t.len(), |k| at + k);
    (from, to)
}
/// The bounds of a random field.
fn field(g: &mut Rng, t: &[u8]) -> (usize, usize) {
    let (a, b) = line(g, t);
    let at = a + g.below((b - a) as u64 + 1) as usize;
    let from = t[a..at].iter().rposition(|&c| c == b',').map_or(a, |k| a + k + 1);
    let to = t[at..b].iter().position(|&c| c == b',').map_or(b, |k| at + k);
    (from, to)
}
fn long(g: &mut Rng) -> Vec<u8> {
    let n = g.pick(&[200, 4_096, 65_536, 65_537, 150_000]);
    let c = g.pick(&[b'0', b'9', b',', b'A', b'-', b' ']);
    let mut v = g.pick(&[&b""[..], b"B,1,", b"R,", b"V,", b"S,"]).to_vec();
    v.resize(v.len() + n, c);
    if g.percent(40) { v.push(b'1'); }
    v
}

pub fn damage(g: &mut Rng, script: String) -> Vec<u8> {
    let mut t = script.into_bytes();
    for _ in 0..(if g.percent(85) { 1 } else { 3 }) { once(g, &mut t); }
    t
}
fn once(g: &mut Rng, t: &mut Vec<u8>) {
    let n = t.len() as u64;
    if n == 0 { return; }
    let at = g.below(n) as usize;
    match g.below(21) {
        0..=2 => t[at] = g.pick(b"0123456789ABCDEFabcdef,,--\n\r \0SRVBZDWCFQIA\xff"),
        3 => t[at] = g.next() as u8,
        4 => { t.remove(at); }
        5 => t.insert(at, g.pick(b"0123456789AF,-\n\r \0\x80")),
        6..=9 => { let (a, b) = field(g, t); let v = g.pick(&FIELDS); t.splice(a..b, v.iter().copied()); }
        10 => { let (_, b) = line(g, t); t.splice(b..b, b",0".iter().copied()); }
        11 => { let (a, b) = line(g, t); if let Some(k) = t[a..b].iter().rposition(|&c| c == b',') { t.drain(a + k..b); } }
        12 => { let (a, b) = line(g, t); let cut = a + g.below((b - a) as u64 + 1) as usize; t.drain(cut..b); }
        13 => { let (a, b) = line(g, t); let copy: Vec<u8> = t[a..b].iter().copied().chain([b'\n']).collect(); let (c, _) = line(g, t); t.splice(c..c, copy); }
        14 => { let (a, b) = line(g, t); t.drain(a..(b + 1).min(n as usize)); }
        15 => t.truncate(at),
        16 => { if t.last() == Some(&b'\n') { t.pop(); } if g.percent(20) { t.truncate(0); } }
        17 => { let (a, _) = line(g, t); t.insert(a, b'\n'); }
        18 => { let (a, _) = field(g, t); let n = g.pick(&[1, 3, 20, 5_000, 70_000]); t.splice(a..a, std::iter::repeat_n(b'0', n)); }
        19 => { let (a, _) = line(g, t); let mut v = long(g); v.push(b'\n'); t.splice(a..a, v); }
        _ => { if g.percent(50) { t.push(b'\n'); } else { let v = long(g); t.extend(v); } }
    }
}
