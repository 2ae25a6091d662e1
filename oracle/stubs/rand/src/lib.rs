//! Stub: fixed values; no send-side call draws a random number.
use core::num::NonZeroU32;
pub trait Draw {
    fn draw() -> Self;
}
impl Draw for u32 {
    fn draw() -> u32 {
        4
    }
}
impl Draw for NonZeroU32 {
    fn draw() -> NonZeroU32 {
        NonZeroU32::new(4).unwrap()
    }
}
pub fn random<T: Draw>() -> T {
    T::draw()
}
