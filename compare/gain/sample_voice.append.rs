pub fn cents_factor_pub(c: f32) -> f32 { cents_factor(c) }
pub fn xf_gain_pub(region: &Region, vel: u8) -> f32 { xf_gain(region, vel) }
pub fn pan_matrix_pub(region: &Region, stereo: bool) -> [f32; 4] { pan_matrix(region, stereo) }
/// A tag, five numbers and the stages of each slot, and the count.
pub fn build_filters_pub(region: &Region, note: u8, vel: u8, sr: f32) -> ([f32; 42], u8) {
    let (slots, n) = build_filters(region, note, vel, sr);
    let mut o = [0.0f32; 42];
    for k in 0..MAX_FILTER_SLOTS {
        let s = &mut o[7 * k..7 * k + 7];
        match slots[k].shape {
            FilterShape::Off => s[0] = 0.0,
            FilterShape::Lp1 { p } => { s[0] = 1.0; s[1] = p; }
            FilterShape::Hp1 { p } => { s[0] = 2.0; s[1] = p; }
            FilterShape::Biquad { c, stages } => {
                s[0] = 3.0;
                s[1..6].copy_from_slice(&c);
                s[6] = stages as f32;
            }
        }
    }
    (o, n)
}
