//! Whole players of the port beside the Rust's: the same region, sample, note and events, every frame and every state.
#![allow(improper_ctypes)]
use oracle::context::ProcessContext;
use oracle::node::UGen;
use oracle::sampler::bank::BoundProgram;
use oracle::sampler::interp::{Interp, SincTable};
use oracle::sampler::pcm::{SamplePcm, SamplePcmBank};
use oracle::sampler::program::*;
use oracle::ugens::sample_voice::*;
use std::hint::black_box;
use std::sync::Arc;

unsafe extern "C" {
    fn p_run(words: &[u32], sample: &[u32], note: &[u32], script: &[u32], a: &[f32], b: &[f32], table: &[f32], left: &mut [f32], right: &mut [f32], z: &mut [f32], f: &mut [f32], d: &mut [f64]) -> usize;
    fn p_blocks(words: &[u32], sample: &[u32], note: &[u32], blocks: u32, a: &[f32], b: &[f32], table: &[f32], left: &mut [f32], right: &mut [f32]) -> f64;
    fn clock_gettime(c: i32, t: *mut [i64; 2]) -> i32;
}
fn now() -> f64 {
    let mut t = [0i64; 2];
    unsafe { clock_gettime(3, &mut t) };
    t[0] as f64 * 1e9 + t[1] as f64
}

struct Rng(u64);
impl Rng {
    fn next(&mut self) -> u64 {
        self.0 = self.0.wrapping_add(0x9E37_79B9_7F4A_7C15);
        let mut z = self.0;
        z = (z ^ (z >> 30)).wrapping_mul(0xBF58_476D_1CE4_E5B9);
        z = (z ^ (z >> 27)).wrapping_mul(0x94D0_49BB_1331_11EB);
        z ^ (z >> 31)
    }
    fn below(&mut self, n: u64) -> u64 { self.next() % n }
    fn one_in(&mut self, n: u64) -> bool { self.below(n) == 0 }
    fn unit(&mut self) -> f32 { (self.next() >> 40) as f32 / (1u64 << 24) as f32 }
    fn within(&mut self, lo: f32, hi: f32) -> f32 {
        match self.below(12) {
            0 => lo,
            1 => hi,
            2 => (lo + (hi - lo) * self.unit()).round(),
            _ => lo + (hi - lo) * self.unit(),
        }
    }
    fn pick<T: Copy>(&mut self, v: &[T]) -> T { v[self.below(v.len() as u64) as usize] }
    fn sample(&mut self) -> f32 {
        match self.below(40) {
            0 => 0.0,
            1 => -0.0,
            2 => f32::from_bits(self.below(0x0080_0000) as u32),
            3 => self.within(-1e6, 1e6),
            _ => self.unit() * 2.0 - 1.0,
        }
    }
    /// mostly short, so that every stage is reached
    fn time(&mut self) -> f32 { match self.below(12) { 0..=5 => 0.0, 6..=8 => self.unit() * 0.004, 9 | 10 => self.unit() * 0.03, _ => self.unit() * 2.0 } }
    fn rate(&mut self) -> f32 {
        match self.below(3) {
            0 => self.pick(&[8000.0, 22050.0, 44100.0, 48000.0, 96000.0, 192000.0]),
            1 => 44100.0,
            _ => 8000.0 + 184000.0 * self.unit(),
        }
    }
}
fn same(a: f32, b: f32) -> bool { a.to_bits() == b.to_bits() || (a.is_nan() && b.is_nan()) }
fn same64(a: f64, b: f64) -> bool { a.to_bits() == b.to_bits() || (a.is_nan() && b.is_nan()) }

fn region(g: &mut Rng, lens: &[u32]) -> Region {
    use FilterKind::*;
    let sample = if g.one_in(16) { SILENCE } else { g.below(lens.len() as u64) as u32 };
    let n = if sample == SILENCE { 1000 } else { lens[sample as usize] };
    let at = |g: &mut Rng, top: u32| -> u32 { match g.below(6) { 0 => 0, 1 => top, 2 => g.below(50) as u32, _ => g.below(top as u64 + 1) as u32 } };
    let a = if g.one_in(2) { g.below(n as u64 / 2 + 1) as u32 } else { at(g, n) };
    let size = match g.below(6) { 0 => 0, 1 => g.below(4) as u32, 2 => g.below(120) as u32, _ => n / 4 + g.below(n as u64) as u32 };
    let kinds = [Lpf1p, Hpf1p, Lpf2p, Hpf2p, Bpf2p, Brf2p, Lpf4p, Hpf4p, Lpf6p, Hpf6p, Peq, Lsh, Hsh];
    let filters = if g.one_in(2) { 0 } else { g.below(5) };
    let bands = if g.one_in(2) { 0 } else { g.below(5) };
    Region {
        sample,
        pitch_keycenter: 60,
        pitch_keytrack: match g.below(6) { 0 => 0.0, 1 => g.within(-1200.0, 1200.0), _ => 100.0 },
        tune_cents: if g.one_in(3) { g.within(-100.0, 100.0) } else { 0.0 },
        transpose: if g.one_in(4) { g.within(-60.0, 60.0) as i32 } else { 0 },
        offset_frames: match g.below(6) { 0 => g.below(n as u64 + 200) as u32, 1 => g.below(40) as u32, 2 => n, _ => 0 },
        end_frames: g.one_in(4).then(|| at(g, n + 10)),
        loop_mode: g.pick(&[LoopMode::NoLoop, LoopMode::OneShot, LoopMode::Continuous, LoopMode::Continuous, LoopMode::Sustain, LoopMode::Sustain]),
        loop_points: (!g.one_in(5)).then(|| (a, (a + size).min(if g.one_in(20) { n + 5 } else { n - 1 }).max(a))),
        volume_db: g.within(-30.0, 12.0),
        amp_random_db: if g.one_in(3) { g.within(0.0, 24.0) } else { 0.0 },
        pan: g.within(-100.0, 100.0),
        width: g.within(-100.0, 100.0),
        amp_veltrack: if g.one_in(2) { 100.0 } else { g.within(-100.0, 100.0) },
        amp_velcurve: if g.one_in(4) { vec![(g.below(64) as u8, g.unit()), (64 + g.below(64) as u8, g.unit())] } else { vec![] },
        ampeg: Envelope {
            delay: if g.one_in(4) { g.time() } else { 0.0 }, attack: g.time(), hold: g.time(), decay: g.time(),
            sustain: match g.below(4) { 0 => 0.0, 1 => g.unit(), 2 => 100.0, _ => g.within(0.0, 100.0) },
            release: g.time(), start: if g.one_in(3) { g.within(0.0, 100.0) } else { 0.0 },
        },
        off_mode: g.pick(&[OffMode::Fast, OffMode::Normal, OffMode::Time]),
        off_time: g.time(),
        trigger: g.pick(&[Trigger::Attack, Trigger::Attack, Trigger::Release, Trigger::ReleaseKey, Trigger::First, Trigger::Legato]),
        rt_decay_db_per_s: if g.one_in(2) { g.within(0.0, 20.0) } else { 0.0 },
        delay_s: if g.one_in(4) { g.time() } else { 0.0 },
        bend_up_cents: g.within(-2400.0, 2400.0),
        bend_down_cents: g.within(-2400.0, 2400.0),
        xf_vel: g.one_in(6).then(|| VelCrossfade { in_lo: g.within(0.0, 128.0), in_hi: g.within(0.0, 128.0), out_lo: g.within(0.0, 128.0), out_hi: g.within(0.0, 128.0), gain_curve: g.one_in(2) }),
        filters: (0..filters).map(|_| Filter { kind: g.pick(&kinds), cutoff: g.within(20.0, 20000.0), resonance: g.within(-10.0, 24.0), keytrack: g.within(-200.0, 200.0), keycenter: g.below(128) as u8, veltrack: g.within(-2400.0, 2400.0), gain: g.within(-24.0, 24.0) }).collect(),
        eq: (0..bands).map(|_| EqBand { kind: g.pick(&[EqKind::Peak, EqKind::LowShelf, EqKind::HighShelf]), freq: g.within(20.0, 20000.0), bw: g.within(0.1, 4.0), gain: g.within(-24.0, 24.0), vel2freq: g.within(-2000.0, 2000.0), vel2gain: g.within(-12.0, 12.0) }).collect(),
        ..Default::default()
    }
}

/// The region's 392 words, as docs/PROGRAM.md has them; what a player does not read stays 0.
fn words(r: &Region) -> Vec<u32> {
    let mut w = vec![0u32; 392];
    let mut put = |at: usize, v: &[u32]| w[at..at + v.len()].copy_from_slice(v);
    let e = &r.ampeg;
    put(0, &[r.sample, 0, 127, 0, 127, r.pitch_keycenter as u32, r.transpose as u32, r.offset_frames]);
    put(8, &[r.end_frames.is_some() as u32, r.end_frames.unwrap_or(0), r.loop_mode as u32, 0]);
    if let Some((a, b)) = r.loop_points { put(12, &[1, a, b]); }
    put(21, &[r.off_mode as u32, r.trigger as u32]);
    put(27, &[r.filters.len() as u32, r.eq.len() as u32]);
    if let Some(x) = &r.xf_vel { put(33, &[1, x.in_lo.to_bits(), x.in_hi.to_bits(), x.out_lo.to_bits(), x.out_hi.to_bits(), x.gain_curve as u32]); }
    let f = [r.pitch_keytrack, r.tune_cents, r.bend_up_cents, r.bend_down_cents, e.delay, e.attack, e.hold, e.decay, e.release, r.off_time, r.delay_s, e.sustain, e.start, r.volume_db, r.amp_random_db, r.pan, r.width, r.amp_veltrack, r.rt_decay_db_per_s];
    for (i, v) in f.iter().enumerate() { put(39 + i, &[v.to_bits()]); }
    for (i, f) in r.filters.iter().enumerate() {
        put(58 + 7 * i, &[f.kind as u32, f.keycenter as u32, f.cutoff.to_bits(), f.resonance.to_bits(), f.keytrack.to_bits(), f.veltrack.to_bits(), f.gain.to_bits()]);
    }
    for (i, b) in r.eq.iter().enumerate() {
        put(100 + 6 * i, &[b.kind as u32, b.freq.to_bits(), b.bw.to_bits(), b.gain.to_bits(), b.vel2freq.to_bits(), b.vel2gain.to_bits()]);
    }
    w
}

/// A program and what both sides lend.
struct Lent { prog: Arc<BoundProgram>, channels: Vec<[Vec<f32>; 2]>, rates: Vec<f32>, table: Vec<f32> }
fn lend(regions: Vec<Region>, channels: Vec<[Vec<f32>; 2]>, rates: Vec<f32>, table: Option<Vec<f32>>) -> Lent {
    let mut bank = SamplePcmBank::new();
    let mut hashes = vec![];
    for (i, c) in channels.iter().enumerate() {
        let h = [i as u8 + 1; 32];
        let chans: Vec<&[f32]> = if c[1].is_empty() { vec![&c[0]] } else { vec![&c[0], &c[1]] };
        bank.register(SamplePcm::new("", h, rates[i], &chans).unwrap());
        hashes.push(h);
    }
    let mut p = BoundProgram::bind(SampleProgram { samples: hashes, regions, ..Default::default() }, &bank).unwrap_or_else(|_| panic!("bind"));
    if let Some(t) = table { p.lend_sinc(SincTable::from_vec(t)); }
    let table = p.sinc_values().to_vec();
    Lent { prog: Arc::new(p), channels, rates, table }
}
#[derive(Clone, Copy)]
struct Note { ri: u32, note: u8, vel: u8, note_f: f32, seed: u32, kind: u32, serial: u32, on_note: bool, held: f32, sr: f32 }
impl Note {
    fn words(&self, l: &Lent) -> [u32; 13] {
        let c = l.prog.velcurve(self.ri).map(|c| c[self.vel as usize]);
        [self.note as u32, self.vel as u32, self.note_f.to_bits(), self.seed, self.kind, self.serial, 0, self.ri, self.on_note as u32, self.held.to_bits(), c.is_some() as u32, c.unwrap_or(0.0).to_bits(), self.sr.to_bits()]
    }
    fn voice(&self, l: &Lent) -> SampleVoice {
        let mut v = SampleVoice::new(l.prog.clone());
        v.init(&ProcessContext::new(self.sr, 128));
        let kind = [Interp::Linear, Interp::Hermite, Interp::Sinc][self.kind as usize];
        v.start_pub(self.ri, self.note, self.vel, self.note_f, self.seed, kind, self.serial as u64, self.on_note, self.held);
        v
    }
}
fn sample_words(l: &Lent, r: &Region) -> [u32; 4] {
    if r.sample == SILENCE { return [0; 4]; }
    let (c, rate) = (&l.channels[r.sample as usize], l.rates[r.sample as usize]);
    [rate.to_bits(), if c[1].is_empty() { 1 } else { 2 }, c[0].len() as u32, 0]
}

#[derive(Default)]
struct Seen {
    frames: u64, audible: u64, nan: u64, players: u64, segments: u64, states: u64, differ: u64, finished: u64, data_ended: u64, retunes: u64, releases: u64, offs: u64,
    kernels: [u64; 3], filters: [u64; 13], bands: [u64; 3], modes: [u64; 4], off_modes: [u64; 3], channels: [u64; 3], steps: [u64; 5], stages: [u64; 8], looped: u64, short: u64, offset: u64, delayed: u64,
}

fn players(want: u64, spoil: bool) -> u64 {
    let mut g = Rng(20260116);
    let mut t = Seen::default();
    let (mut z, mut f, mut d) = (vec![0.0f32; 72 * 64], vec![0.0f32; 9 * 64], vec![0.0f64; 8 * 64]);
    while t.frames < want {
        let channels: Vec<[Vec<f32>; 2]> = (0..4).map(|_| {
            let n = 1 + match g.below(4) { 0 => g.below(8), 1 => g.below(300), _ => g.below(6000) };
            let a = (0..n).map(|_| g.sample()).collect();
            let b = if g.one_in(2) { vec![] } else { (0..n).map(|_| g.sample()).collect() };
            [a, b]
        }).collect();
        let rates: Vec<f32> = (0..4).map(|_| match g.below(12) { 0 => 768000.0 * g.unit() + 1.0, _ => g.rate() }).collect();
        let lens: Vec<u32> = channels.iter().map(|c| c[0].len() as u32).collect();
        let regions: Vec<Region> = (0..32).map(|_| region(&mut g, &lens)).collect();
        let table = match g.below(8) { 0 => Some((0..8194).map(|_| g.unit() * 2.0 - 1.0).collect()), 1 => Some(vec![0.0; 8194]), _ => None };
        let l = lend(regions.clone(), channels, rates, table);
        for (ri, r) in regions.iter().enumerate() {
            let sr = if g.one_in(3) && r.sample != SILENCE { l.rates[r.sample as usize].clamp(8000.0, 192000.0) } else { g.rate() };
            let note_f = match g.below(8) { 0 | 1 => 60.0, 2 => g.within(0.0, 127.0).round(), 3 => g.within(-300.0, 400.0), _ => g.within(30.0, 100.0) };
            let n = Note { ri: ri as u32, note: note_f.round().clamp(0.0, 127.0) as u8, vel: g.below(128) as u8, note_f, seed: g.next() as u32, kind: g.below(3) as u32, serial: g.next() as u32, on_note: !g.one_in(4), held: g.unit() * 3.0, sr };
            one(&mut g, &l, r, n, &mut t, spoil, &mut z, &mut f, &mut d);
        }
    }
    println!("players {}, segments {}, states compared {} of 81 singles and 7 doubles; finished {}, data ended {}", t.players, t.segments, t.states, t.finished, t.data_ended);
    println!("kernels (linear, Hermite, sinc) {:?}; channels (silent, mono, stereo) {:?}", t.kernels, t.channels);
    println!("steps at starts (0, below 1, exactly 1, above 1, 4096) {:?}", t.steps);
    println!("loop modes (none, one shot, continuous, sustain) {:?}; with loop points {}, of at most 4 frames {}; offsets {}, delays {}", t.modes, t.looped, t.short, t.offset, t.delayed);
    println!("filters by kind {:?}; bands by kind {:?}", t.filters, t.bands);
    println!("retunes {}, releases {}, offs {} by mode (fast, normal, time) {:?}; states seen by stage {:?}", t.retunes, t.releases, t.offs, t.off_modes, t.stages);
    println!("frames not 0 in the left output {}, NaN {}", t.audible, t.nan);
    println!("{} frames, {} differ", t.frames, t.differ);
    t.differ
}

#[allow(clippy::too_many_arguments)]
fn one(g: &mut Rng, l: &Lent, r: &Region, n: Note, t: &mut Seen, spoil: bool, z: &mut [f32], f: &mut [f32], d: &mut [f64]) {
    let segs = 8 + g.below(40) as usize;
    let mut script = vec![0u32; 4];
    for _ in 1..segs {
        let len = match g.below(4) { 0 => 128, _ => 1 + g.below(128) } as u32;
        let (op, x, y) = match g.below(24) {
            0..=3 => (1, if g.one_in(12) { g.within(-300.0, 400.0) } else { n.note_f + g.within(-3.0, 3.0) }, if g.one_in(3) { 0.0 } else { g.within(-1.0, 1.0) }),
            4 => (2, 0.0, 0.0),
            5 => (3, 0.0, 0.0),
            _ => (0, 0.0, 0.0),
        };
        script.extend([len, op, x.to_bits(), y.to_bits()]);
    }
    let total: usize = script.chunks(4).map(|s| s[0] as usize).sum();
    let (mut pl, mut pr) = (vec![0.0f32; total], vec![0.0f32; total]);
    let (mut rl, mut rr) = (vec![0.0f32; total], vec![0.0f32; total]);
    let none: &[f32] = &[];
    let (a, b) = if r.sample == SILENCE { (none, none) } else { let c = &l.channels[r.sample as usize]; (&c[0][..], &c[1][..]) };
    let mut nw = n.words(l);
    if spoil { nw[2] ^= 1; }
    let done = unsafe { p_run(&words(r), &sample_words(l, r), &nw, &script, a, b, &l.table, &mut pl, &mut pr, z, f, d) };
    assert_eq!(done, segs, "the port refused");
    let mut v = n.voice(l);
    let mut at = 0;
    let mut bad = 0u64;
    let mut ended = false;
    for (i, s) in script.chunks(4).enumerate() {
        match s[1] {
            1 => { v.pitch_pub(f32::from_bits(s[2]), f32::from_bits(s[3])); t.retunes += 1; }
            2 => { v.note_off_pub(); t.releases += 1; }
            3 => { v.off_pub(); t.offs += 1; t.off_modes[r.off_mode as usize] += 1; }
            _ => {}
        }
        let len = s[0] as usize;
        v.render_pub(len, &mut rl[at..at + len], &mut rr[at..at + len]);
        for j in at..at + len {
            if !same(rl[j], pl[j]) || !same(rr[j], pr[j]) { bad += 1; }
            if rl[j] != 0.0 { t.audible += 1; }
            if rl[j].is_nan() { t.nan += 1; }
        }
        at += len;
        t.frames += len as u64;
        let (z, f, d) = (&z[72 * i..72 * i + 72], &f[9 * i..9 * i + 9], &d[8 * i..8 * i + 8]);
        t.stages[d[2] as usize] += 1;
        let ok = match v.state_pub() {
            None => { d[2] == 7.0 }
            Some(s) => {
                t.states += 1;
                ended |= s.data_ended;
                same64(s.pos, d[0]) && same64(s.step, d[1]) && s.eg as f64 == d[2] && (s.data_ended as u8) as f64 == d[3] && (s.offed as u8) as f64 == d[4]
                    && s.half as f64 == d[5] && s.n_filters as f64 == d[6]
                    && s.singles.iter().zip(f).all(|(x, y)| same(*x, *y)) && s.states.iter().zip(z).all(|(x, y)| same(*x, *y))
            }
        };
        if !ok { bad += 1; }
        if i == 0 {
            let step = d[1];
            t.steps[if step == 0.0 { 0 } else if step < 1.0 { 1 } else if step == 1.0 { 2 } else if step < 4096.0 { 3 } else { 4 }] += 1;
        }
        if bad > 0 {
            if t.differ < 4 { println!("differ: segment {i} (frame {at}) {:?} {d:?} {f:?} of region {r:?}", v.state_pub().map(|s| (s.pos, s.step, s.eg, s.data_ended, s.offed, s.singles))); }
            break;
        }
        // a player that is done is gone
        if v.state_pub().is_none() {
            if pl[at..].iter().chain(&pr[at..]).any(|x| x.to_bits() != 0) { bad += 1; }
            t.finished += 1;
            break;
        }
        t.segments += 1;
    }
    t.differ += bad;
    t.players += 1;
    t.data_ended += ended as u64;
    t.kernels[n.kind as usize] += 1;
    t.modes[r.loop_mode as usize] += 1;
    t.channels[if r.sample == SILENCE { 0 } else if b.is_empty() { 1 } else { 2 }] += 1;
    for x in &r.filters { t.filters[x.kind as usize] += 1; }
    for x in &r.eq { t.bands[x.kind as usize] += 1; }
    if let Some((a, b)) = r.loop_points { t.looped += 1; if b - a < 4 { t.short += 1; } }
    t.offset += (r.offset_frames > 0) as u64;
    t.delayed += (r.delay_s > 0.0) as u64;
}

fn med(v: &mut [f64]) -> f64 { v.sort_by(|a, b| a.total_cmp(b)); v[v.len() / 2] }

fn bench(name: &str, kind: u32, stereo: bool, step: f64, filters: usize, blocks: u32, rounds: usize) {
    let mut g = Rng(3);
    let n = 40_000;
    let mut noise = |_| (0..n).map(|_| g.unit() * 2.0 - 1.0).collect::<Vec<f32>>();
    let (a, b) = (noise(0), if stereo { noise(1) } else { vec![] });
    let two = [FilterKind::Lpf2p, FilterKind::Peq];
    let r = Region {
        loop_mode: LoopMode::Continuous, loop_points: Some((1000, 39_000)),
        filters: (0..filters).map(|i| Filter { kind: two[i], cutoff: 3000.0 - 2100.0 * i as f32, resonance: 1.0, keytrack: 0.0, keycenter: 60, veltrack: 0.0, gain: 3.0 }).collect(),
        ..Default::default()
    };
    let l = lend(vec![r.clone()], vec![[a, b]], vec![44100.0], None);
    let note_f = 60.0 + 12.0 * (step.log2()) as f32;
    let note = Note { ri: 0, note: 60, vel: 100, note_f, seed: 0, kind, serial: 1, on_note: true, held: 0.0, sr: 44100.0 };
    let (w, s, nw) = (words(&r), sample_words(&l, &r), note.words(&l));
    let c = &l.channels[0];
    let (mut rs, mut ra) = (vec![], vec![]);
    for _ in 0..rounds {
        let (mut rl, mut rr) = (vec![0.0f32; 128], vec![0.0f32; 128]);
        let (mut pl, mut pr) = (vec![0.0f32; 128], vec![0.0f32; 128]);
        let t = now();
        let mut v = note.voice(&l);
        for _ in 0..blocks { v.render_pub(128, black_box(&mut rl), black_box(&mut rr)); }
        rs.push((now() - t) / (blocks as f64 * 128.0));
        let t = now();
        let pos = unsafe { p_blocks(&w, &s, &nw, blocks, &c[0], &c[1], &l.table, black_box(&mut pl), black_box(&mut pr)) };
        ra.push((now() - t) / (blocks as f64 * 128.0));
        assert!(same64(v.state_pub().unwrap().pos, pos));
        assert!(rl.iter().zip(&pl).all(|(x, y)| same(*x, *y)) && rr.iter().zip(&pr).all(|(x, y)| same(*x, *y)));
    }
    let (x, y) = (med(&mut rs), med(&mut ra));
    println!("{name:<36} Rust {x:7.2} ns  port {y:7.2} ns  ratio {:.2}", y / x);
}

fn main() {
    let arg = |k: usize| std::env::args().nth(k);
    if arg(1).as_deref() != Some("bench") {
        // a third word spoils the last bit of the note on the port's side, to see that the comparison can fail
        let bad = players(arg(2).and_then(|x| x.parse().ok()).unwrap_or(10_000_000), arg(3).is_some());
        std::process::exit((bad > 0) as i32);
    }
    let rounds = arg(2).and_then(|x| x.parse().ok()).unwrap_or(31);
    let only = arg(3).unwrap_or_default();
    for (name, kind, stereo, step, filters, blocks) in [
        ("sinc stereo, step 1.0227", 2, true, 1.0227, 0, 60),
        ("sinc mono, step 1.0227", 2, false, 1.0227, 0, 60),
        ("Hermite mono, two biquads", 1, false, 1.0227, 2, 300),
        ("linear mono", 0, false, 1.0227, 0, 600),
        ("unity copy, sinc quality", 2, false, 1.0, 0, 1000),
    ] {
        if name.contains(&only) { bench(name, kind, stereo, step, filters, blocks, rounds); }
    }
}
