//! Compares the port's binding, lookup and velocity curve with the Rust's, on generated programs, good and damaged; or times the test of a block.
use oracle::sampler::bank::{BoundProgram, velcurve_table};
use oracle::sampler::pcm::{SamplePcm, SamplePcmBank};
use oracle::sampler::program::*;

unsafe extern "C" {
    fn x_bind(w: *const u32, wn: usize, s: *const u32, sn: usize, f: *const f32, fl: usize, t: *const f32, tn: usize) -> u64;
    fn x_ok(r: u32, c: u32, b: usize, w: *const u32, wn: usize, s: *const u32, sn: usize, frames: usize, table: usize) -> u32;
    fn x_next(w: *const u32, wn: usize, n: u32, key: u8, from: u32) -> u32;
    fn x_release(w: *const u32, wn: usize, n: u32, key: u8, vel: u8) -> u32;
    fn x_velcurve(w: *const u32, wn: usize, i: u32, vel: u8) -> f32;
    fn x_sample(w: *const u32, wn: usize, s: *const u32, sn: usize, i: u32) -> u32;
}

struct Rng(u64);
impl Rng {
    fn next(&mut self) -> u64 {
        self.0 = self.0.wrapping_add(0x9e3779b97f4a7c15);
        let mut z = self.0;
        z = (z ^ (z >> 30)).wrapping_mul(0xbf58476d1ce4e5b9);
        z = (z ^ (z >> 27)).wrapping_mul(0x94d049bb133111eb);
        z ^ (z >> 31)
    }
    fn below(&mut self, n: u64) -> u64 { self.next() % n }
    fn one_in(&mut self, n: u64) -> bool { self.below(n) == 0 }
    fn f(&mut self, lim: f32) -> f32 {
        match self.below(12) {
            0 => 0.0,
            1 => -0.0,
            2 => lim,
            3 => -lim,
            4 => 1.0,
            _ => ((self.below(1 << 24) as f32) / (1u64 << 23) as f32 - 1.0) * lim,
        }
    }
    /// A number, rarely one past the limit, an infinity, a NaN or any bits.
    fn bad(&mut self, good: f32, lim: f32, d: u64) -> f32 {
        if !self.one_in(d) { return good; }
        match self.below(7) {
            0 => f32::INFINITY,
            1 => f32::NEG_INFINITY,
            2 => f32::from_bits(0x7fc00000 | (self.next() as u32 & 0x803fffff)),
            3 => f32::from_bits(lim.to_bits() + 1),
            4 => -f32::from_bits(lim.to_bits() + 1),
            5 => -lim,
            _ => f32::from_bits(self.next() as u32),
        }
    }
    fn u7(&mut self, d: u64) -> u8 { if self.one_in(d) { 120 + self.below(136) as u8 } else { self.below(128) as u8 } }
}

fn region(g: &mut Rng, n: usize, d: u64) -> Region {
    let mut r = Region::default();
    r.sample = if g.one_in(8) { SILENCE } else if g.one_in(d) { n as u32 + g.below(3) as u32 } else { g.below(n.max(1) as u64) as u32 };
    let (a, b) = (g.u7(d), g.u7(d));
    (r.lokey, r.hikey) = if g.one_in(d) { (a, b) } else { (a.min(b), a.max(b)) };
    let (a, b) = (g.u7(d), g.u7(d));
    (r.lovel, r.hivel) = if g.one_in(d) { (a, b) } else { (a.min(b), a.max(b)) };
    r.pitch_keycenter = g.u7(d);
    let x = g.f(1200.0); r.pitch_keytrack = g.bad(x, 1200.0, d);
    let x = g.f(9600.0); r.tune_cents = g.bad(x, 9600.0, d);
    r.transpose = if g.one_in(d) { g.below(600) as i32 - 300 } else { g.below(255) as i32 - 127 };
    r.offset_frames = g.next() as u32;
    r.end_frames = g.one_in(2).then(|| g.next() as u32);
    r.loop_mode = [LoopMode::NoLoop, LoopMode::OneShot, LoopMode::Continuous, LoopMode::Sustain][g.below(4) as usize];
    r.loop_source = [LoopSource::None, LoopSource::Sfz, LoopSource::File, LoopSource::Whole][g.below(4) as usize];
    if g.one_in(2) {
        let (a, b) = (g.next() as u32, g.next() as u32);
        r.loop_points = Some(if g.one_in(d) { (a, b) } else { (a.min(b), a.max(b)) });
    }
    for p in [&mut r.volume_db, &mut r.amp_random_db, &mut r.pan, &mut r.width, &mut r.amp_veltrack, &mut r.rt_decay_db_per_s, &mut r.ampeg.sustain, &mut r.ampeg.start] {
        let x = g.f(1e30); *p = g.bad(x, 1e30, d);
    }
    for p in [&mut r.ampeg.delay, &mut r.ampeg.attack, &mut r.ampeg.hold, &mut r.ampeg.decay, &mut r.ampeg.release, &mut r.off_time, &mut r.delay_s] {
        let x = g.f(3600.0); *p = g.bad(x, 3600.0, d);
    }
    let x = g.f(9600.0); r.bend_up_cents = g.bad(x, 9600.0, d);
    let x = g.f(9600.0); r.bend_down_cents = g.bad(x, 9600.0, d);
    let np = if g.one_in(2) { 0 } else if g.one_in(12) { 128 + g.one_in(d) as u64 } else { g.below(7) };
    for _ in 0..np {
        let x = g.f(4.0);
        r.amp_velcurve.push((g.u7(d * 4), g.bad(x, 4.0, d * 4)));
    }
    if g.one_in(2) {
        let l = 1 + g.below(5) as u32;
        r.seq = Some(if g.one_in(d) { (g.below(3) as u32, g.below(5) as u32) } else { (l, 1 + g.below(l as u64) as u32) });
    }
    if g.one_in(2) { let (x, y) = (g.f(1.0), g.f(1.0)); r.rand = Some((g.bad(x, 1.0, d), g.bad(y, 1.0, d))); }
    r.group = g.next() as i32;
    r.off_by = g.one_in(2).then(|| g.next() as i32);
    r.off_mode = [OffMode::Fast, OffMode::Normal, OffMode::Time][g.below(3) as usize];
    r.trigger = [Trigger::Attack, Trigger::Release, Trigger::ReleaseKey, Trigger::First, Trigger::Legato][g.below(5) as usize];
    r.note_polyphony = g.one_in(2).then(|| g.below(4) as u32);
    r.polyphony = g.one_in(2).then(|| g.below(4) as u32);
    if g.one_in(2) {
        let mut v = [0.0; 4];
        for p in v.iter_mut() { let x = g.f(127.0); *p = g.bad(x, 127.0, d); }
        r.xf_vel = Some(VelCrossfade { in_lo: v[0], in_hi: v[1], out_lo: v[2], out_hi: v[3], gain_curve: g.one_in(2) });
    }
    let nf = if g.one_in(d) { 7 } else { g.below(7) };
    for _ in 0..nf {
        let mut v = [0.0; 5];
        for p in v.iter_mut() { let x = g.f(1e4); *p = g.bad(x, 1e4, d * 4); }
        r.filters.push(Filter { kind: FILTER_KINDS[g.below(13) as usize], cutoff: v[0], resonance: v[1], keytrack: v[2], keycenter: g.below(256) as u8, veltrack: v[3], gain: v[4] });
    }
    let nb = if g.one_in(d) { 7 } else { g.below(7) };
    for _ in 0..nb {
        let mut v = [0.0; 5];
        for p in v.iter_mut() { let x = g.f(1e4); *p = g.bad(x, 1e4, d * 4); }
        r.eq.push(EqBand { kind: EQ_KINDS[g.below(3) as usize], freq: v[0], bw: v[1], gain: v[2], vel2freq: v[3], vel2gain: v[4] });
    }
    r
}

/// docs/PROGRAM.md's table, written again from the page.
fn encode(r: &Region) -> Vec<u32> {
    let mut w = vec![0u32; 392];
    w[0] = r.sample;
    for (k, v) in [r.lokey, r.hikey, r.lovel, r.hivel, r.pitch_keycenter].into_iter().enumerate() { w[1 + k] = v as u32; }
    w[6] = r.transpose as u32;
    w[7] = r.offset_frames;
    if let Some(e) = r.end_frames { w[8] = 1; w[9] = e; }
    w[10] = r.loop_mode as u32;
    w[11] = r.loop_source as u32;
    if let Some((a, b)) = r.loop_points { w[12] = 1; w[13] = a; w[14] = b; }
    if let Some((l, p)) = r.seq { w[15] = 1; w[16] = l; w[17] = p; }
    w[18] = r.group as u32;
    if let Some(o) = r.off_by { w[19] = 1; w[20] = o as u32; }
    w[21] = r.off_mode as u32;
    w[22] = r.trigger as u32;
    if let Some(n) = r.note_polyphony { w[23] = 1; w[24] = n; }
    if let Some(n) = r.polyphony { w[25] = 1; w[26] = n; }
    w[27] = r.filters.len() as u32;
    w[28] = r.eq.len() as u32;
    w[29] = r.amp_velcurve.len() as u32;
    if let Some((a, b)) = r.rand { w[30] = 1; w[31] = a.to_bits(); w[32] = b.to_bits(); }
    if let Some(x) = r.xf_vel {
        w[33] = 1;
        for (k, v) in [x.in_lo, x.in_hi, x.out_lo, x.out_hi].into_iter().enumerate() { w[34 + k] = v.to_bits(); }
        w[38] = x.gain_curve as u32;
    }
    let e = r.ampeg;
    for (k, v) in [r.pitch_keytrack, r.tune_cents, r.bend_up_cents, r.bend_down_cents, e.delay, e.attack, e.hold, e.decay, e.release, r.off_time, r.delay_s,
        e.sustain, e.start, r.volume_db, r.amp_random_db, r.pan, r.width, r.amp_veltrack, r.rt_decay_db_per_s].into_iter().enumerate() { w[39 + k] = v.to_bits(); }
    for (k, f) in r.filters.iter().take(6).enumerate() {
        let at = 58 + 7 * k;
        w[at] = FILTER_KINDS.iter().position(|x| *x == f.kind).unwrap() as u32;
        w[at + 1] = f.keycenter as u32;
        for (j, v) in [f.cutoff, f.resonance, f.keytrack, f.veltrack, f.gain].into_iter().enumerate() { w[at + 2 + j] = v.to_bits(); }
    }
    for (k, b) in r.eq.iter().take(6).enumerate() {
        let at = 100 + 6 * k;
        w[at] = EQ_KINDS.iter().position(|x| *x == b.kind).unwrap() as u32;
        for (j, v) in [b.freq, b.bw, b.gain, b.vel2freq, b.vel2gain].into_iter().enumerate() { w[at + 1 + j] = v.to_bits(); }
    }
    for (k, (v, x)) in r.amp_velcurve.iter().take(128).enumerate() { w[136 + k] = *v as u32; w[264 + k] = x.to_bits(); }
    w
}

/// 01's second test: `validate_region`, or one of the limits that it adds.
fn valid(r: &Region, i: usize, n: usize) -> bool {
    let e = r.ampeg;
    validate_region_pub(r, i, n).is_ok()
        && [e.delay, e.attack, e.hold, e.decay, e.release, r.off_time, r.delay_s].iter().all(|t| !(*t > 3600.0))
        && r.pitch_keytrack.abs() <= 1200.0
        && [r.tune_cents, r.bend_up_cents, r.bend_down_cents].iter().all(|c| c.abs() <= 9600.0)
        && r.transpose.abs() <= 127
}

struct Smp { rate: f32, channels: u32, frames: u32, start: u32 }

fn pcm(s: &Smp, f: &[f32], hash: [u8; 32]) -> Option<SamplePcm> {
    if s.rate > 768000.0 || s.frames > 2147483647 || s.channels > 2 { return None; }
    let mut ch = Vec::new();
    for c in 0..s.channels as u64 {
        let a = s.start as u64 + c * s.frames as u64;
        ch.push(f.get(a as usize..(a + s.frames as u64) as usize)?);
    }
    SamplePcm::new("", hash, s.rate, &ch)
}

fn compare(g: &mut Rng, tally: &mut [u64; 6]) {
    // one program in two is good
    let d = if g.one_in(2) { u64::MAX } else { [20, 200, 2000][g.below(3) as usize] };
    let nr = match g.below(400) { 0 => 256, 1 => 257, _ => g.below(6) } as usize;
    let nr = if d == u64::MAX && nr == 257 { 256 } else { nr };
    let ns = match g.below(400) { 0 => 256, 1 if d != u64::MAX => 257, _ => 1 + g.below(4) } as usize;
    let mut frames: Vec<f32> = (0..64).map(|_| g.f(1.0)).collect();
    if g.one_in(d) { let k = g.below(64) as usize; frames[k] = [f32::NAN, f32::INFINITY, f32::NEG_INFINITY][g.below(3) as usize]; }
    let mut samples = Vec::new();
    for j in 0..ns {
        let channels = if g.one_in(d) { g.below(5) as u32 } else { 1 + g.below(2) as u32 };
        let n = if g.one_in(d) { g.below(40) as u32 } else { 1 + g.below(8) as u32 };
        let start = if g.one_in(d) { 40 + g.below(30) as u32 } else { (j as u32) % 48 };
        let rate = if g.one_in(d) { [0.0, -1.0, f32::NAN, f32::INFINITY, 768000.06, 768001.0, -0.0][g.below(7) as usize] } else { [44100.0, 768000.0, 1e-40, 48000.0][g.below(4) as usize] };
        samples.push(Smp { rate, channels, frames: if g.one_in(d) { g.next() as u32 } else { n }, start });
    }
    let nt = if g.one_in(d) { 8193 + g.below(3) as usize } else { 8194 };
    let mut table = vec![0.25f32; nt];
    if g.one_in(d) { table[g.below(nt as u64) as usize] = f32::NAN; }
    let regions: Vec<Region> = (0..nr).map(|_| region(g, ns, d)).collect();
    let mut words: Vec<u32> = regions.iter().flat_map(encode).collect();
    for _ in 0..g.below(3) { words.push(g.next() as u32); } // words left over
    let sw: Vec<u32> = samples.iter().flat_map(|s| [s.rate.to_bits(), s.channels, s.frames, s.start]).collect();

    let pcms: Vec<Option<SamplePcm>> = samples.iter().enumerate().map(|(j, s)| { let mut h = [0u8; 32]; h[0] = j as u8; h[1] = (j >> 8) as u8; pcm(s, &frames, h) }).collect();
    let want = if nr > 256 || ns > 256 || regions.iter().any(|r| r.filters.len() > 6 || r.eq.len() > 6 || r.amp_velcurve.len() > 128) { 1 }
        else if let Some(i) = (0..nr).find(|&i| !valid(&regions[i], i, ns)) { 2 + 8 * i as u64 }
        else if let Some(j) = (0..ns).find(|&j| pcms[j].is_none()) { 3 + 8 * j as u64 }
        else if nt != 8194 || table.iter().any(|v| !v.is_finite()) { 4 }
        else { 0 };
    let got = unsafe { x_bind(words.as_ptr(), words.len(), sw.as_ptr(), sw.len(), frames.as_ptr(), frames.len(), table.as_ptr(), table.len()) };
    assert_eq!(got, want, "bind: {regions:?}");
    tally[if want == 0 { 0 } else { (want % 8) as usize }] += 1;
    let ok = |fl: usize, tn: usize| unsafe { x_ok(nr as u32, ns as u32, frames.len(), words.as_ptr(), words.len(), sw.as_ptr(), sw.len(), fl, tn) } == 1;
    if want == 0 {
        assert!(ok(frames.len(), nt) && ok(frames.len() + 1, nt + 1) && !ok(frames.len() - 1, nt) && !ok(frames.len(), nt - 1));
    }
    if want == 1 || want % 8 == 2 { assert!(!ok(frames.len(), 8194)); }
    for (i, r) in regions.iter().enumerate() {
        if r.amp_velcurve.is_empty() || r.amp_velcurve.len() > 128 { continue; }
        let t = velcurve_table(&r.amp_velcurve);
        for v in 0..=255u8 {
            let x = unsafe { x_velcurve(words.as_ptr(), words.len(), i as u32, v) };
            let y = t[v.min(127) as usize];
            assert!(x.to_bits() == y.to_bits() || (x.is_nan() && y.is_nan()), "velcurve {:?} {v}: {x} {y}", r.amp_velcurve);
            tally[5] += 1;
        }
    }
    if want != 0 { return; }
    let mut bank = SamplePcmBank::new();
    let mut hashes = Vec::new();
    for p in pcms.into_iter().flatten() { hashes.push(*p.hash()); bank.register(p); }
    let prog = SampleProgram { samples: hashes, regions, ..Default::default() };
    let b = BoundProgram::bind(prog, &bank).ok().unwrap();
    for key in 0..=255u8 {
        let mut list = Vec::new();
        let mut from = 0;
        loop {
            let i = unsafe { x_next(words.as_ptr(), words.len(), nr as u32, key, from) };
            if i == u32::MAX { break; }
            list.push(i);
            from = i + 1;
        }
        assert_eq!(list, b.regions_for_key(key));
        for vel in [0, 1, 63, 64, 126, 127, g.below(128) as u8] {
            assert_eq!(unsafe { x_release(words.as_ptr(), words.len(), nr as u32, key, vel) } == 1, b.has_release_for(key, vel));
        }
    }
    for i in 0..nr as u32 {
        let s = unsafe { x_sample(words.as_ptr(), words.len(), sw.as_ptr(), sw.len(), i) };
        match b.sample_of(i) {
            None => assert_eq!(s, u32::MAX),
            Some(p) => { let j = p.hash()[0] as usize | (p.hash()[1] as usize) << 8; assert_eq!(s, samples[j].start); }
        }
    }
}

fn time() {
    for curves in [false, true] {
        for n in [16usize, 64, 256] {
            let mut r = Region::default();
            if curves { r.amp_velcurve = (0..128).map(|v| (v as u8, v as f32 / 127.0)).collect(); }
            let mut words: Vec<u32> = Vec::new();
            for _ in 0..n { words.extend(encode(&r)); }
            let sw: Vec<u32> = (0..n).flat_map(|_| [44100f32.to_bits(), 2, 1000, 0]).collect();
            let mut best = f64::MAX;
            for _ in 0..30 {
                let t = std::time::Instant::now();
                for _ in 0..200 {
                    let ok = unsafe { x_ok(n as u32, n as u32, 2000, words.as_ptr(), words.len(), sw.as_ptr(), sw.len(), 2000, 8194) };
                    assert_eq!(ok, 1);
                }
                best = best.min(t.elapsed().as_secs_f64() / 200.0);
            }
            println!("{n} regions and samples, {}: {:.2} us", if curves { "128 velocity points each" } else { "no velocity points" }, best * 1e6);
        }
    }
}

fn main() {
    let arg = std::env::args().nth(1).unwrap_or("100000".into());
    if arg == "time" { return time(); }
    let n: u64 = arg.parse().unwrap();
    let mut tally = [0u64; 6];
    for seed in 0..n { compare(&mut Rng(seed.wrapping_mul(0x1234567)), &mut tally); }
    println!("{n} programs agree: {} bound, {} refused with 1, {} with 2, {} with 3, {} with 4; {} entries of velocity curves", tally[0], tally[1], tally[2], tally[3], tally[4], tally[5]);
}
