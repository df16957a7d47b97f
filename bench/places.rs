//! What a copy of the port's players costs by where it lands: `rustc -O bench/places.rs -o target/places && target/places`.
//! Nanoseconds of one copy of 21,760 bytes, the least of seven times 200, for places that lie so many bytes apart (modulo 4,096).
use std::hint::black_box;
use std::time::Instant;

fn main() {
    let mut room = vec![0u8; 1 << 20];
    let from = (room.as_mut_ptr() as usize + 4095) & !4095;
    for apart in [0usize, 32, 64, 512, 2048, 4064, 8, 16, 24, 72, 136, 264, 520, 1032, 2056, 4080] {
        let (source, place) = (from as *const u8, (from + 65536 + apart) as *mut u8);
        let least = (0..7).map(|_| {
            let begun = Instant::now();
            for _ in 0..200 {
                // both ranges lie inside `room`, and do not overlap
                unsafe { std::ptr::copy_nonoverlapping(source, place, black_box(21760)) };
            }
            begun.elapsed().as_nanos() as f64 / 200.0
        }).fold(f64::MAX, f64::min);
        println!("{apart:5} {least:6.0}");
    }
}
