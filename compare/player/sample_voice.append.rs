/// A player's state, and its filters' memory in the port's order: twelve places a slot, six a channel.
#[derive(Debug, Clone, Copy)]
pub struct PlayerState {
    pub pos: f64,
    pub step: f64,
    pub eg: u8,
    pub data_ended: bool,
    pub offed: bool,
    pub half: usize,
    pub n_filters: u8,
    pub singles: [f32; 9],
    pub states: [f32; 72],
}
impl SampleVoice {
    /// What `process` does for one player: its start, and the events between two segments.
    #[allow(clippy::too_many_arguments)]
    pub fn start_pub(&mut self, ri: u32, note: u8, vel: u8, note_f: f32, seed: u32, interp: Interp, serial: u64, on_note: bool, held_secs: f32) {
        let ns = NoteState { note, vel, note_f, on_time: 0, seed, interp, choke_released: false };
        let prog = self.prog.clone();
        prog.session.with(|s| self.start_region(s, ri, &ns, serial, on_note, 0, held_secs));
    }
    pub fn pitch_pub(&mut self, note_f: f32, bend: f32) {
        for p in self.players.iter_mut() { p.set_pitch(note_f, bend); }
    }
    /// The voice has no note, so that no release region follows.
    pub fn note_off_pub(&mut self) {
        self.gate_held = true;
        self.note_off(0);
    }
    pub fn off_pub(&mut self) {
        if let Some(slot) = self.players.first().map(|p| p.slot) { self.apply_off(slot, 0); }
    }
    pub fn render_pub(&mut self, n: usize, l: &mut [f32], r: &mut [f32]) { self.render(0, n, l, r) }
    pub fn state_pub(&self) -> Option<PlayerState> {
        let p = self.players.first()?;
        let mut states = [0.0f32; 72];
        for (k, f) in p.filters.iter().enumerate() {
            for ch in 0..2 {
                let at = 12 * k + 6 * ch;
                match f.shape {
                    FilterShape::Off => {}
                    FilterShape::Lp1 { .. } | FilterShape::Hp1 { .. } => (states[at], states[at + 1]) = f.one_pole[ch],
                    FilterShape::Biquad { .. } => for s in 0..3 { (states[at + 2 * s], states[at + 2 * s + 1]) = f.state[ch][s].z(); },
                }
            }
        }
        let (fc, half) = p.span.parts();
        let [ll, rl, lr, rr] = p.matrix;
        Some(PlayerState {
            pos: p.pos, step: p.step, eg: p.env.state as u8, data_ended: p.data_ended, offed: p.offed, half, n_filters: p.n_filters,
            singles: [p.env.value, p.env.release_rate, p.env.transition_delta, fc, p.gain, ll, rl, lr, rr], states,
        })
    }
}
