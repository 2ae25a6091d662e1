//! Stub: only what util.rs needs to compile (CRC-32/ISCSI, bit by bit). No send-side call uses it.
use core::marker::PhantomData;
pub struct Algorithm;
pub const CRC_32_ISCSI: Algorithm = Algorithm;
pub struct Table<const N: usize>;
pub struct Crc<W, T>(PhantomData<(W, T)>);
pub struct Digest(u32);
impl<const N: usize> Crc<u32, Table<N>> {
    pub const fn new(_: &'static Algorithm) -> Self {
        Crc(PhantomData)
    }
    pub fn digest(&self) -> Digest {
        Digest(!0)
    }
}
impl Digest {
    pub fn update(&mut self, b: &[u8]) {
        for &x in b {
            self.0 ^= x as u32;
            for _ in 0..8 {
                self.0 = if self.0 & 1 == 1 { (self.0 >> 1) ^ 0x82F6_3B78 } else { self.0 >> 1 };
            }
        }
    }
    pub fn finalize(self) -> u32 {
        !self.0
    }
}
