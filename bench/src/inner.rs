//! Steps on bytes that are checked once, which only the library of the crate
//! bench_api exports.

#[cfg(feature = "inner")]
extern "C" {
    fn hall_steps(hall: *mut u8, hall_len: usize, actions: *const u32, words: usize) -> u32;
}

/// Whether the call is linked.
pub const LINKED: bool = cfg!(feature = "inner");

/// All actions one after another: 0, or 31 for bytes that are no hall.
#[cfg(feature = "inner")]
pub fn steps(hall: &mut [u8], actions: &[[u32; 4]]) -> u32 {
    let length = hall.len();
    let words = actions.as_flattened();
    // Safety: the pointers are those of two slices.
    unsafe { hall_steps(hall.as_mut_ptr(), length, words.as_ptr(), words.len()) }
}

#[cfg(not(feature = "inner"))]
pub fn steps(_: &mut [u8], _: &[[u32; 4]]) -> u32 {
    unreachable!("not linked")
}
