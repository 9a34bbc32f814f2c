use crate::Error;
use bpfhost_sys::LONGEST_FRAME;

/// Packets one after another. Their memory is kept for those of the next batch.
#[derive(Default)]
pub(crate) struct Batch {
    pub(crate) bytes: Vec<u8>,
    // Before which byte each packet ends.
    pub(crate) ends: Vec<usize>,
}

impl Batch {
    /// Copies other packets in their place, of which there may be `most`. One that is longer than the longest frame is cut to that
    /// length: the host refuses it all the same, since it is longer than a packet may be.
    ///
    /// # Errors
    ///
    /// [`Error::Room`]: there are more.
    pub(crate) fn fill(&mut self, packets: impl IntoIterator<Item: AsRef<[u8]>>, most: usize) -> Result<(), Error> {
        self.bytes.clear();
        self.ends.clear();
        for packet in packets {
            if self.ends.len() == most {
                return Err(Error::Room { results: most });
            }
            let packet = packet.as_ref();
            self.bytes.extend_from_slice(&packet[..packet.len().min(LONGEST_FRAME)]);
            self.ends.push(self.bytes.len());
        }
        Ok(())
    }
}
