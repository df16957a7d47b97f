//! The loads, as the Rust takes them and as the words that the port is lent (docs/PROGRAM.md).
use oracle::lister::noise;
use oracle::sampler::program::*;

pub const CHANNEL: usize = 40_000;

#[derive(Clone)]
pub struct Load {
    pub name: String,
    /// Voices that play one block at first, gate up, and then rest.
    pub others: usize,
    /// Voices that play a block in each round.
    pub voices: usize,
    pub frames: usize,
    /// Of `regions` regions, the first `players` have the note in their window.
    pub players: usize,
    pub regions: usize,
    pub stereo: bool,
    pub silent: bool,
    pub biquads: bool,
    pub choke: bool,
    /// Frames at the start of each block with the gate down.
    pub low: usize,
    pub freq: f32,
    /// 0 linear, 1 Hermite, 2 sinc.
    pub quality: f32,
    pub rounds: u32,
}

/// Rounds that are played before the clock starts, timed, and summed up after it stops.
#[derive(Clone, Copy)]
pub struct Rounds { pub warm: u32, pub timed: u32, pub checked: u32 }
impl Rounds {
    pub fn all(self) -> Rounds { Rounds { warm: 0, timed: 0, checked: self.warm + self.timed + self.checked } }
}

impl Load {
    pub fn usual(&self) -> Rounds { Rounds { warm: 4, timed: self.rounds, checked: 2 } }

    fn region(&self, i: usize) -> Region {
        let filter = |kind, cutoff| Filter { kind, cutoff, resonance: 1.0, keytrack: 0.0, keycenter: 60, veltrack: 0.0, gain: 3.0 };
        Region {
            sample: if self.silent { SILENCE } else { 0 },
            hikey: if i < self.players { 127 } else { 0 },
            pitch_keycenter: 69,
            loop_mode: LoopMode::Continuous,
            loop_points: Some((1000, 39_000)),
            filters: if self.biquads { vec![filter(FilterKind::Lpf2p, 3000.0), filter(FilterKind::Peq, 900.0)] } else { vec![] },
            group: self.choke as i32,
            off_by: self.choke.then_some(1),
            ..Default::default()
        }
    }
    pub fn program(&self) -> Vec<Region> { (0..self.regions).map(|i| self.region(i)).collect() }
    pub fn channel(&self, c: u64) -> Vec<f32> { (0..CHANNEL as u64).map(|i| noise(0, c, i)).collect() }

    pub const VEL: f32 = 0.8;
    /// One voice plays `freq`; of several each has a key of its own.
    pub fn freq_of(&self, voice: usize) -> f32 {
        if self.others + self.voices == 1 { self.freq } else { 440.0 * 2f32.powf((voice as f32 + 0.3) / 12.0) }
    }
    pub fn gate(&self) -> [f32; 128] { std::array::from_fn(|i| if i < self.low { 0.0 } else { 1.0 }) }

    /// Standard input of the port's side.
    pub fn words(&self, r: Rounds, table: &[f32]) -> Vec<u8> {
        let head = [self.others as u32, self.voices as u32, self.frames as u32, r.warm, r.timed, r.checked, self.regions as u32];
        let mut w: Vec<u32> = head.into_iter().chain(std::iter::repeat(0)).take(16).collect();
        let mut floats: Vec<f32> = (0..16).flat_map(|v| [self.freq_of(v); 128]).collect();
        floats.extend(self.gate());
        floats.extend([1.0; 128]);
        floats.extend([Self::VEL; 128]);
        floats.extend([self.quality; 128]);
        floats.extend(table);
        for c in 0..2 { floats.extend(self.channel(c)); }
        w.extend(floats.iter().map(|v| v.to_bits()));
        w.extend([44100f32.to_bits(), 1 + self.stereo as u32, CHANNEL as u32, 0]);
        for r in self.program() { w.extend(region_words(&r)); }
        w.iter().flat_map(|v| v.to_le_bytes()).collect()
    }
}

/// What these loads use of a region.
fn region_words(r: &Region) -> [u32; 392] {
    let mut w = [0; 392];
    let mut put = |at: usize, v: &[u32]| w[at..at + v.len()].copy_from_slice(v);
    put(0, &[r.sample, r.lokey as u32, r.hikey as u32, r.lovel as u32, r.hivel as u32, r.pitch_keycenter as u32]);
    put(10, &[r.loop_mode as u32]);
    if let Some((a, b)) = r.loop_points { put(12, &[1, a, b]); }
    put(18, &[r.group as u32]);
    if let Some(g) = r.off_by { put(19, &[1, g as u32]); }
    put(27, &[r.filters.len() as u32]);
    for (at, v) in [(39, r.pitch_keytrack), (41, r.bend_up_cents), (42, r.bend_down_cents), (47, r.ampeg.release), (48, r.off_time), (50, r.ampeg.sustain), (55, r.width), (56, r.amp_veltrack)] {
        put(at, &[v.to_bits()]);
    }
    for (i, f) in r.filters.iter().enumerate() {
        put(58 + 7 * i, &[f.kind as u32, f.keycenter as u32, f.cutoff.to_bits(), f.resonance.to_bits(), f.keytrack.to_bits(), f.veltrack.to_bits(), f.gain.to_bits()]);
    }
    w
}

fn load(name: &str) -> Load {
    Load {
        name: name.into(), others: 0, voices: 1, frames: 128, players: 1, regions: 1, stereo: false, silent: false, biquads: false, choke: false,
        low: 0, freq: 450.0, quality: 2.0, rounds: 1000,
    }
}
fn idle(name: &str) -> Load { Load { low: 128, rounds: 4000, ..load(name) } }
fn many(name: &str) -> Load { Load { players: 32, regions: 32, rounds: 60, ..load(name) } }
fn sixteen(name: &str) -> Load { Load { voices: 16, stereo: true, rounds: 5, ..many(name) } }
fn edges(name: &str) -> Load { Load { choke: true, low: 64, ..sixteen(name) } }

/// The loads of the table, at 128 frames. A step of 450 / 440 is 1.0227.
pub fn loads() -> Vec<Load> {
    vec![
        idle("idle"),
        Load { others: 15, players: 32, regions: 32, ..idle("idle-480") },
        Load { freq: 440.0, rounds: 4000, ..load("unity-mono") },
        Load { stereo: true, ..load("sinc-stereo") },
        Load { stereo: true, freq: 1760.0, rounds: 500, ..load("sinc-stereo-4") },
        Load { quality: 1.0, rounds: 4000, ..load("hermite-mono") },
        Load { quality: 0.0, rounds: 4000, ..load("linear-mono") },
        Load { quality: 1.0, biquads: true, rounds: 200, ..many("hermite-32-biquads") },
        Load { stereo: true, ..many("sinc-stereo-32") },
        Load { freq: 440.0, stereo: true, rounds: 500, ..many("unity-stereo-32") },
        edges("edges-16x32-sinc"),
        Load { silent: true, rounds: 40, ..edges("edges-16x32-silent") },
        sixteen("held-16x32-sinc"),
        Load { silent: true, rounds: 40, ..sixteen("held-16x32-silent") },
        Load { silent: true, rounds: 500, ..many("silent-32") },
    ]
}
pub fn named(name: &str) -> Option<Load> { loads().into_iter().chain(growth().into_iter().flat_map(|g| g.1)).find(|l| l.name == name) }

/// Blocks of other sizes: as many frames in all, but at most four times as many blocks.
pub fn sized(l: &Load, frames: usize) -> Load {
    let times = (128 / frames).clamp(1, 4) as u32;
    Load { frames, low: l.low.min(128) * frames / 128, rounds: l.rounds * times, ..l.clone() }
}

/// What grows, and the loads by its size.
pub fn growth() -> Vec<(&'static str, Vec<Load>)> {
    let at = |l: Load, n: usize| Load { name: format!("{} {n}", l.name), ..l };
    vec![
        ("players, Hermite mono", [1, 2, 4, 8, 16, 32].map(|n| Load { players: n, regions: 32, quality: 1.0, rounds: 4000 / n as u32, ..at(load("hermite players"), n) }).into()),
        ("players, unity mono", [1, 2, 4, 8, 16, 32].map(|n| Load { players: n, regions: 32, freq: 440.0, rounds: 4000 / n as u32, ..at(load("unity players"), n) }).into()),
        ("players, sinc stereo", [1, 2, 4, 8, 16, 32].map(|n| Load { players: n, regions: 32, stereo: true, rounds: 1000 / n as u32, ..at(load("sinc players"), n) }).into()),
        ("records of others, idle voice", [0, 120, 240, 480].map(|n| Load { others: if n == 0 { 0 } else { 15 }, players: n / 15, regions: 32, ..at(idle("records"), n) }).into()),
        ("regions, idle voice", [1, 16, 64, 256].map(|n| Load { players: 1, regions: n, ..at(idle("regions"), n) }).into()),
        ("voices of 32 silent players, edges and chokes", [1, 2, 4, 8, 16].map(|n| Load { voices: n, silent: true, rounds: 640 / n as u32, ..at(edges("voices"), n) }).into()),
        ("frames, idle voice", [1, 16, 64, 128].map(|n| at(sized(&idle("idle frames"), n), n)).into()),
        ("frames, Hermite mono", [1, 16, 64, 128].map(|n| at(sized(&Load { quality: 1.0, rounds: 4000, ..load("hermite frames") }, n), n)).into()),
        ("frames, 32 players sinc stereo", [1, 16, 64, 128].map(|n| at(sized(&Load { stereo: true, ..many("sinc frames") }, n), n)).into()),
    ]
}
