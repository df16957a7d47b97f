// Every f32 from 0 to 3.2 against the f64 functions of the platform, on two threads; then the time per call.
// Arguments: none, or a stride.
use std::hint::black_box;
use std::time::Instant;

extern "C" {
    fn fx_sin(x: f32) -> f32;
    fn fx_cos(x: f32) -> f32;
}

#[derive(Clone, Copy, Default)]
struct Worst {
    sin: f64,
    sin_at: f32,
    part: f64,
    part_at: f32,
    cos: f64,
    cos_at: f32,
}

fn sweep(from: u32, to: u32, stride: usize) -> Worst {
    let mut w = Worst::default();
    for b in (from..to).step_by(stride) {
        let x = f32::from_bits(b);
        let y = x as f64;
        let s = y.sin();
        let e = (unsafe { fx_sin(x) } as f64 - s).abs();
        assert!(!e.is_nan());
        if e > w.sin {
            w.sin = e;
            w.sin_at = x;
        }
        if x <= 1.5 && s > 0.0 && e / s > w.part {
            w.part = e / s;
            w.part_at = x;
        }
        let e = (unsafe { fx_cos(x) } as f64 - y.cos()).abs();
        assert!(!e.is_nan());
        if e > w.cos {
            w.cos = e;
            w.cos_at = x;
        }
    }
    w
}

// ns per call over 4,096 numbers from 2^-12 to 3.2, the best of 1,000 passes: results stored, and each call waiting for the last
fn time(name: &str, f: impl Fn(f32) -> f32) {
    let xs: Vec<f32> = (0..4096u32).map(|i| 0.00025 + 3.1995 * (i.wrapping_mul(2654435761) >> 8) as f32 / 16777216.0).collect();
    let mut ys = vec![0.0f32; 4096];
    let (mut best, mut chained) = (f64::MAX, f64::MAX);
    for _ in 0..1000 {
        let t = Instant::now();
        for (y, x) in black_box(&mut ys).iter_mut().zip(black_box(&xs)) {
            *y = f(*x);
        }
        best = best.min(t.elapsed().as_nanos() as f64 / 4096.0);
        let t = Instant::now();
        let mut last = 0.0f32;
        for &x in black_box(&xs) {
            last = f(x + last * 1e-30);
        }
        black_box(last);
        chained = chained.min(t.elapsed().as_nanos() as f64 / 4096.0);
    }
    println!("{name}: {best:.2} ns, {chained:.2} ns each after the last");
}

fn main() {
    let stride: usize = std::env::args().nth(1).map_or(1, |s| s.parse().unwrap());
    let end = 0x404C_CCCDu32; // the first f32 above 3.2
    let half = 0x3000_0000u32; // the f64 functions take longer on what lies above
    let t = Instant::now();
    let (a, b) = std::thread::scope(|s| {
        let h = s.spawn(|| sweep(0, half, stride));
        let b = sweep(half, end, stride);
        (h.join().unwrap(), b)
    });
    let bound = 1.0 / 4194304.0;
    let pick = |x: f64, y: f64, at: f32, bt: f32| if x > y { (x, at) } else { (y, bt) };
    println!("{} arguments of each, {:.1} s", (end as usize + stride - 1) / stride, t.elapsed().as_secs_f64());
    for (name, (e, x)) in [
        ("sin", pick(a.sin, b.sin, a.sin_at, b.sin_at)),
        ("sin, part of itself up to 1.5", pick(a.part, b.part, a.part_at, b.part_at)),
        ("cos", pick(a.cos, b.cos, a.cos_at, b.cos_at)),
    ] {
        println!("{name}: {e:.4e} at {x} ({:#010x}), {:.4} of 1/4194304", x.to_bits(), e / bound);
    }
    // the edges
    for b in [end, end + 1, 0x7F80_0000, 0xFF80_0000, 0x7FC0_0000, 0x8000_0001, 0xBF80_0000] {
        let x = f32::from_bits(b);
        assert!(unsafe { fx_sin(x) }.is_nan() && unsafe { fx_cos(x) }.is_nan(), "{}", x);
    }
    for b in [0u32, 0x8000_0000, 1, 0x397F_FFFF] {
        let x = f32::from_bits(b);
        assert!(unsafe { fx_sin(x) }.to_bits() == b && unsafe { fx_cos(x) } == 1.0, "{}", x);
    }
    time("fx_sin", |x| unsafe { fx_sin(x) });
    time("fx_cos", |x| unsafe { fx_cos(x) });
    time("f32::sin", |x| x.sin());
    time("f32::cos", |x| x.cos());
}
