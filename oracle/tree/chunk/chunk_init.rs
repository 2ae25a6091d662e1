//! STUB: just what config.rs names.
use super::{chunk_header::*, chunk_type::*, *};
// The crate's own files use these two imports of mod.rs; without a use of them here the build would warn.
type _Imports = (Box<u8>, String);
#[derive(Debug, Default, Clone)]
pub(crate) struct ChunkInit {
    pub(crate) initiate_tag: u32,
    pub(crate) initial_tsn: u32,
    pub(crate) num_outbound_streams: u16,
    pub(crate) num_inbound_streams: u16,
    pub(crate) advertised_receiver_window_credit: u32,
}
impl ChunkInit {
    pub(crate) fn set_supported_extensions(&mut self) {}
}
impl fmt::Display for ChunkInit {
    fn fmt(&self, f: &mut fmt::Formatter<'_>) -> fmt::Result {
        write!(f, "INIT")
    }
}
impl Chunk for ChunkInit {
    fn header(&self) -> ChunkHeader {
        ChunkHeader { typ: CT_INIT, flags: 0, value_length: 0 }
    }
    fn unmarshal(_: &Bytes) -> Result<Self> {
        Ok(Self::default())
    }
    fn marshal_to(&self, w: &mut BytesMut) -> Result<usize> {
        self.header().marshal_to(w)
    }
    fn check(&self) -> Result<()> {
        Ok(())
    }
    fn value_length(&self) -> usize {
        0
    }
    fn as_any(&self) -> &(dyn Any + Send + Sync) {
        self
    }
}
