//! A device for the Rust's `format` that keeps no bytes itself: it hands each block, run of zeros and flush on.

use std::io;
use std::sync::Mutex;

use futures::executor::block_on;
use mkfs_xfs::device::BlockDevice;
use mkfs_xfs::error::{Error, Result};
use mkfs_xfs::format::format;
use mkfs_xfs::geometry::Geometry;

use crate::model::{self, Sizing};
use crate::request::Request;

/// What is done with that which `format` writes.
pub trait Sink: Send {
    fn block(&mut self, at: u64, bytes: &[u8]) -> io::Result<()>;
    fn zeros(&mut self, at: u64, len: u64) -> io::Result<()>;
    fn flush(&mut self) -> io::Result<()>;
}

/// Runs `format` on a device of the request's sizes, and gives back the sink with all that was written. A roomy run is the model's.
pub fn formatted<S: Sink>(q: &Request, g: &Geometry, sink: S) -> io::Result<S> {
    if q.sizing() == Sizing::Roomy {
        return model::written(q, g, sink);
    }
    let (size, logical, physical) = (q.device, q.logical, q.physical);
    let device = Recorded { size, logical, physical, block: g.blocksize as usize, sink: Mutex::new(sink) };
    block_on(format(&device, &q.params())).map_err(|e| io::Error::other(format!("{e:?}")))?;
    Ok(device.sink.into_inner().unwrap())
}

/// A longer write is split into blocks, rising.
struct Recorded<S> {
    size: u64,
    logical: u32,
    physical: u32,
    block: usize,
    sink: Mutex<S>,
}

#[async_trait::async_trait]
impl<S: Sink> BlockDevice for Recorded<S> {
    fn size(&self) -> u64 {
        self.size
    }

    fn logical_sector_size(&self) -> u32 {
        self.logical
    }

    fn physical_sector_size(&self) -> u32 {
        self.physical
    }

    async fn read_at(&self, offset: u64, _buf: &mut [u8]) -> Result<()> {
        Err(Error::io(offset, io::Error::other("nothing is read")))
    }

    async fn write_at(&self, offset: u64, buf: &[u8]) -> Result<()> {
        let mut sink = self.sink.lock().unwrap();
        for (i, block) in buf.chunks(self.block).enumerate() {
            let at = offset + (i * self.block) as u64;
            sink.block(at, block).map_err(|e| Error::io(at, e))?;
        }
        Ok(())
    }

    async fn write_zeroes(&self, offset: u64, len: u64) -> Result<()> {
        self.sink.lock().unwrap().zeros(offset, len).map_err(|e| Error::io(offset, e))
    }

    async fn flush(&self) -> Result<()> {
        self.sink.lock().unwrap().flush().map_err(|e| Error::io(0, e))
    }
}
