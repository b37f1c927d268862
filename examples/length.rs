// Measures a quarter of the equator and prints its length, or the number of the refusal.
#[repr(C)]
struct Length {
    refusal: u32,
    millimetres: u64,
}

// edition 2024 wants `unsafe` before this
extern "C" {
    fn senruhobi_measure(points: *const i32, numbers: usize) -> Length;
}

fn main() {
    // each point: latitude and longitude in ticks, and 1 where the pen was up before it, as before the first, else 0
    let points = [0, 0, 1, 0, 900_000_000, 0];
    // SAFETY: the pointer is good for so many numbers, and the door asks for nothing else
    let length = unsafe { senruhobi_measure(points.as_ptr(), points.len()) };
    match length.refusal {
        0 => println!("{} mm", length.millimetres),
        refusal => println!("refused: {refusal}"),
    }
}
