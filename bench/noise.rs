//! The recording of both benchmarks: noise from -1 to 1, the same in every run.

pub fn noise(entries: usize) -> Vec<f32> {
    let mut state = 1_u64;
    let mut sample = || {
        state = state.wrapping_mul(6_364_136_223_846_793_005).wrapping_add(1_442_695_040_888_963_407);
        (state >> 40) as f32 / (1 << 23) as f32 - 1.0
    };
    (0..entries).map(|_| sample()).collect()
}
