//! Samples for all feeds of a rack, made once and shared by the threads that write them.
use std::sync::{Arc, Mutex};

/// The bytes of a sample: two f32.
pub const SAMPLE_LEN: usize = 8;

/// Memory of rooms that nobody holds any more.
#[derive(Default)]
pub struct Pool(Mutex<Vec<Vec<f32>>>);

/// One block for each feed, one behind the other; little-endian.
pub struct Room {
    floats: Vec<f32>,
    feeds: usize,
    pool: Arc<Pool>,
}

impl Room {
    /// Room for blocks of some floats, filled by a function.
    pub fn filled<E>(pool: &Arc<Pool>, feeds: usize, floats: usize, fill: impl FnOnce(&mut [f32]) -> Result<(), E>) -> Result<Room, E> {
        let mut memory = pool.0.lock().unwrap().pop().unwrap_or_default();
        memory.resize(feeds * floats, 0.0);
        let mut room = Room { floats: memory, feeds, pool: pool.clone() };
        fill(&mut room.floats)?;
        if cfg!(target_endian = "big") {
            for x in &mut room.floats {
                *x = f32::from_bits(x.to_bits().to_le());
            }
        }
        Ok(room)
    }

    /// Samples of each block.
    pub fn samples(&self) -> u64 {
        (self.floats.len() / self.feeds / 2) as u64
    }

    /// The bytes of a feed's block.
    pub fn bytes(&self, feed: usize) -> &[u8] {
        let floats = self.floats.len() / self.feeds;
        let part = &self.floats[feed * floats..(feed + 1) * floats];
        // Any f32 is four bytes, and bytes may stand anywhere.
        unsafe { std::slice::from_raw_parts(part.as_ptr().cast(), size_of_val(part)) }
    }
}

impl Drop for Room {
    fn drop(&mut self) {
        self.pool.0.lock().unwrap().push(std::mem::take(&mut self.floats));
    }
}
