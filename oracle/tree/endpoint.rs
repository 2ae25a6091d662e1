//! STUB. `Endpoint` is the oracle's door: the original lib.rs exports no other that fits. Two more names that nothing here uses
//! are doors of the race in `bench/`: `SnapSide` to the bare sender, `SnapError` to the bare timers.
#[derive(Debug)]
pub enum AidCollisionKind {}
#[derive(Debug)]
pub enum ConnectError {}
#[derive(Debug)]
pub enum DatagramEvent {}
#[derive(Debug)]
pub struct AssociationHandle(pub usize);
pub use crate::association::oracle::Oracle as Endpoint;
pub use crate::association::oracle::bench::{BenchSender as SnapSide, BenchTimers as SnapError};
