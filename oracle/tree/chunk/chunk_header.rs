//! STUB, from RFC 9260 section 3.2: type, flags, length (header included).
use super::{chunk_type::*, *};
pub(crate) const CHUNK_HEADER_SIZE: usize = 4;
#[derive(Debug, Clone)]
pub(crate) struct ChunkHeader {
    pub(crate) typ: ChunkType,
    pub(crate) flags: u8,
    pub(crate) value_length: u16,
}
impl fmt::Display for ChunkHeader {
    fn fmt(&self, f: &mut fmt::Formatter<'_>) -> fmt::Result {
        write!(f, "{} {} {}", self.typ, self.flags, self.value_length)
    }
}
impl Chunk for ChunkHeader {
    fn header(&self) -> ChunkHeader {
        self.clone()
    }
    fn unmarshal(raw: &Bytes) -> Result<Self> {
        if raw.len() < CHUNK_HEADER_SIZE {
            return Err(Error::ErrChunkHeaderTooSmall);
        }
        let r = &mut raw.clone();
        let (typ, flags, length) = (ChunkType(r.get_u8()), r.get_u8(), r.get_u16());
        if (length as usize) < CHUNK_HEADER_SIZE {
            return Err(Error::ErrChunkHeaderInvalidLength);
        }
        if raw.len() < length as usize {
            return Err(Error::ErrChunkHeaderNotEnoughSpace);
        }
        Ok(ChunkHeader { typ, flags, value_length: length - CHUNK_HEADER_SIZE as u16 })
    }
    fn marshal_to(&self, w: &mut BytesMut) -> Result<usize> {
        w.put_u8(self.typ.0);
        w.put_u8(self.flags);
        w.put_u16(self.value_length.wrapping_add(CHUNK_HEADER_SIZE as u16));
        Ok(w.len())
    }
    fn check(&self) -> Result<()> {
        Ok(())
    }
    fn value_length(&self) -> usize {
        self.value_length as usize
    }
    fn as_any(&self) -> &(dyn Any + Send + Sync) {
        self
    }
}
