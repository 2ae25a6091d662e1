//! Stub of the crate `bytes`: a shared, sliceable buffer, as much of it as the copied files use.
use std::fmt;
use std::ops::{Bound, Deref, RangeBounds};
use std::sync::Arc;

#[derive(Clone)]
enum Store {
    Static(&'static [u8]),
    Shared(Arc<Vec<u8>>),
}

#[derive(Clone)]
pub struct Bytes {
    store: Store,
    off: usize,
    len: usize,
}

impl Bytes {
    pub const fn new() -> Self {
        Bytes::from_static(&[])
    }
    pub const fn from_static(b: &'static [u8]) -> Self {
        Bytes { store: Store::Static(b), off: 0, len: b.len() }
    }
    pub fn len(&self) -> usize {
        self.len
    }
    pub fn is_empty(&self) -> bool {
        self.len == 0
    }
    /// As in `bytes`: the length becomes 0, the place stays.
    pub fn clear(&mut self) {
        self.len = 0;
    }
    pub fn slice(&self, r: impl RangeBounds<usize>) -> Bytes {
        let a = match r.start_bound() {
            Bound::Included(&x) => x,
            Bound::Excluded(&x) => x + 1,
            Bound::Unbounded => 0,
        };
        let b = match r.end_bound() {
            Bound::Included(&x) => x + 1,
            Bound::Excluded(&x) => x,
            Bound::Unbounded => self.len,
        };
        assert!(a <= b && b <= self.len, "range out of bounds");
        Bytes { store: self.store.clone(), off: self.off + a, len: b - a }
    }
    pub fn split_to(&mut self, at: usize) -> Bytes {
        let r = self.slice(..at);
        self.off += at;
        self.len -= at;
        r
    }
}
impl Deref for Bytes {
    type Target = [u8];
    fn deref(&self) -> &[u8] {
        let all: &[u8] = match &self.store {
            Store::Static(b) => b,
            Store::Shared(v) => v,
        };
        &all[self.off..self.off + self.len]
    }
}
impl AsRef<[u8]> for Bytes {
    fn as_ref(&self) -> &[u8] {
        self
    }
}
impl Default for Bytes {
    fn default() -> Self {
        Bytes::new()
    }
}
impl From<Vec<u8>> for Bytes {
    fn from(v: Vec<u8>) -> Self {
        let len = v.len();
        Bytes { store: Store::Shared(Arc::new(v)), off: 0, len }
    }
}
impl PartialEq for Bytes {
    fn eq(&self, o: &Bytes) -> bool {
        **self == **o
    }
}
impl Eq for Bytes {}
impl fmt::Debug for Bytes {
    fn fmt(&self, f: &mut fmt::Formatter<'_>) -> fmt::Result {
        write!(f, "Bytes({}+{})", self.off, self.len)
    }
}
impl IntoIterator for Bytes {
    type Item = u8;
    type IntoIter = std::vec::IntoIter<u8>;
    fn into_iter(self) -> Self::IntoIter {
        self.to_vec().into_iter()
    }
}

#[derive(Default, Clone, Debug, PartialEq, Eq)]
pub struct BytesMut(Vec<u8>);
impl BytesMut {
    pub fn new() -> Self {
        BytesMut(Vec::new())
    }
    pub fn with_capacity(n: usize) -> Self {
        BytesMut(Vec::with_capacity(n))
    }
    pub fn freeze(self) -> Bytes {
        self.0.into()
    }
    pub fn clear(&mut self) {
        self.0.clear();
    }
    pub fn extend_from_slice(&mut self, s: &[u8]) {
        self.0.extend_from_slice(s)
    }
    pub fn len(&self) -> usize {
        self.0.len()
    }
    pub fn is_empty(&self) -> bool {
        self.0.is_empty()
    }
}
impl Extend<u8> for BytesMut {
    fn extend<I: IntoIterator<Item = u8>>(&mut self, i: I) {
        self.0.extend(i)
    }
}
impl Deref for BytesMut {
    type Target = [u8];
    fn deref(&self) -> &[u8] {
        &self.0
    }
}

pub trait Buf {
    fn take<const N: usize>(&mut self) -> [u8; N];
    fn get_u8(&mut self) -> u8 {
        u8::from_be_bytes(self.take())
    }
    fn get_u16(&mut self) -> u16 {
        u16::from_be_bytes(self.take())
    }
    fn get_u32(&mut self) -> u32 {
        u32::from_be_bytes(self.take())
    }
}
impl Buf for Bytes {
    fn take<const N: usize>(&mut self) -> [u8; N] {
        let bytes = self[..N].try_into().expect("so many bytes");
        self.off += N;
        self.len -= N;
        bytes
    }
}
pub trait BufMut {
    fn put_slice(&mut self, s: &[u8]);
    fn put_u8(&mut self, v: u8) {
        self.put_slice(&[v])
    }
    fn put_u16(&mut self, v: u16) {
        self.put_slice(&v.to_be_bytes())
    }
    fn put_u32(&mut self, v: u32) {
        self.put_slice(&v.to_be_bytes())
    }
}
impl BufMut for BytesMut {
    fn put_slice(&mut self, s: &[u8]) {
        self.0.extend_from_slice(s)
    }
}
