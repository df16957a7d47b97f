//! The Rust's side: the same load, printed as the port's side prints it (bench/port/main.rt.txt).
use crate::load::{Load, Rounds};
use oracle::api;
use oracle::buffer::AudioBuffer;
use oracle::context::ProcessContext;
use oracle::lister::bits;
use oracle::node::UGen;
use oracle::sampler::bank::BoundProgram;
use oracle::sampler::pcm::{SamplePcm, SamplePcmBank};
use oracle::sampler::program::SampleProgram;
use oracle::ugens::sample_voice::{SampleVoice, splitmix64_pub};
use std::sync::Arc;

unsafe extern "C" { fn clock() -> i64; }

fn filled(values: &[f32]) -> AudioBuffer {
    let mut b = AudioBuffer::mono(values.len());
    b.channel_mut(0).samples_mut().copy_from_slice(values);
    b
}
pub fn bound(l: &Load) -> Arc<BoundProgram> {
    let hash = [1; 32];
    let channels: Vec<Vec<f32>> = (0..1 + l.stereo as u64).map(|c| l.channel(c)).collect();
    let parts: Vec<&[f32]> = channels.iter().map(|c| c.as_slice()).collect();
    let mut bank = SamplePcmBank::new();
    bank.register(SamplePcm::new("", hash, 44100.0, &parts).expect("a sample"));
    let program = SampleProgram { samples: vec![hash], regions: l.program(), ..Default::default() };
    Arc::new(BoundProgram::bind(program, &bank).ok().expect("a program"))
}

struct Seat { voice: SampleVoice, freq: AudioBuffer }

/// The last digits are the answers, all 0, and the processor time before and after the timed blocks.
pub fn run(l: &Load, r: Rounds) -> String {
    let p = bound(l);
    let n = l.frames;
    let mut context = ProcessContext::new(44100.0, n);
    let mut seats: Vec<Seat> = (0..l.others + l.voices).map(|v| {
        let mut voice = SampleVoice::new(p.clone());
        voice.init(&context);
        Seat { voice, freq: filled(&vec![l.freq_of(v); n]) }
    }).collect();
    let (up, gate) = (filled(&vec![1.0; n]), filled(&l.gate()[..n]));
    let (vel, quality) = (filled(&vec![Load::VEL; n]), filled(&vec![l.quality; n]));
    let mut out = AudioBuffer::new(2, n);
    let (others, voices) = seats.split_at_mut(l.others);
    let play = |s: &mut Seat, c: &ProcessContext, g: &AudioBuffer, out: &mut AudioBuffer| {
        s.voice.process(c, &[Some(&s.freq), Some(g), Some(&vel), None, None, None, Some(&quality)], out);
        std::hint::black_box(&mut *out);
    };
    for s in others { play(s, &context, &up, &mut out); }
    let (mut sum, mut began, mut ended) = (0, 0, 0);
    let with = |s: u64, x: u64| splitmix64_pub(s ^ x);
    for round in 0..r.warm + r.timed + r.checked {
        if round == r.warm { began = unsafe { clock() }; }
        if round == r.warm + r.timed { ended = unsafe { clock() }; }
        context.advance();
        for s in voices.iter_mut() {
            play(s, &context, &gate, &mut out);
            if round >= r.warm + r.timed {
                for i in 0..n { for c in 0..2 { sum = with(sum, bits(out.channel(c).samples()[i]) as u64); } }
            }
        }
    }
    let records = api::records(&p);
    let list = records.iter().fold(0, |s, r| {
        let fields = [r.voice, r.slot as u64, r.region as u64, r.off_by.is_some() as u64, r.note as u64, r.vel as u64, r.on_note as u64, r.start, r.offed as u64, r.off_at.map_or(0, |t| t + 1)];
        fields.into_iter().fold(s, with)
    });
    format!("{sum} {list} {} {} 0 {began} {ended}", records.len(), api::held(&p))
}
