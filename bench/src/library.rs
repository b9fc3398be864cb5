// The exported functions of crates/bench. A slice is passed as a pointer and then a length.

mod exported {
    unsafe extern "C" {
        pub safe fn bench_lines(level: u32, room: usize) -> u64;
        pub safe fn bench_vectors(level: u32, room: usize) -> u64;
        pub safe fn bench_matrices(level: u32, room: usize) -> u64;
        pub safe fn bench_place(level: u32, room: usize, seed: u64, count: u64) -> u64;
        pub fn bench_origami(
            right: *const u8,
            rights: usize,
            up: *const u8,
            ups: usize,
            room: usize,
        ) -> u64;
        pub fn bench_forms(
            right: *const u8,
            rights: usize,
            up: *const u8,
            ups: usize,
            seed: u64,
            count: u64,
        ) -> u64;
    }
}

pub use exported::bench_lines as lines;
pub use exported::bench_matrices as matrices;
pub use exported::bench_place as place;
pub use exported::bench_vectors as vectors;

pub fn origami(right: &[u8], up: &[u8], room: usize) -> u64 {
    // SAFETY: the pointers and lengths are those of slices, which are only read.
    unsafe { exported::bench_origami(right.as_ptr(), right.len(), up.as_ptr(), up.len(), room) }
}

pub fn forms(right: &[u8], up: &[u8], seed: u64, count: u64) -> u64 {
    // SAFETY: as above.
    unsafe {
        exported::bench_forms(
            right.as_ptr(),
            right.len(),
            up.as_ptr(),
            up.len(),
            seed,
            count,
        )
    }
}
