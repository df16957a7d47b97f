pub fn coeffs_pub(kind: u8, freq: f32, q: f32, db: f32, sr: f32) -> [f32; 5] {
    let c = match kind {
        0 => biquad_lpf_coeffs(freq, q, sr),
        1 => biquad_hpf_coeffs(freq, q, sr),
        2 => biquad_bpf_coeffs(freq, q, sr),
        3 => biquad_notch_coeffs(freq, q, sr),
        4 => biquad_peaking_coeffs(freq, q, db, sr),
        5 => biquad_low_shelf_coeffs(freq, q, db, sr),
        _ => biquad_high_shelf_coeffs(freq, q, db, sr),
    };
    [c.0, c.1, c.2, c.3, c.4]
}
