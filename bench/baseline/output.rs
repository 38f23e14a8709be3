//! What goes to standard output, in blocks.
use std::io::{self, Write};

/// How many bytes go out at once, about.
const BLOCK: usize = 1 << 16;

/// Room for a line, behind each block.
pub const ROOM: usize = 128;

/// Standard output, with a block that is kept back. A line of at most `ROOM` bytes is written into `room`, and `wrote` keeps it.
pub struct Output {
    block: Box<[u8; BLOCK + ROOM]>,
    len: usize,
    failure: Option<io::Error>,
}

impl Output {
    /// Nothing yet.
    pub fn new() -> Output {
        Output { block: Box::new([0; BLOCK + ROOM]), len: 0, failure: None }
    }

    /// Room for a line behind what is there.
    #[inline]
    pub fn room(&mut self) -> &mut [u8; ROOM] {
        if self.len > BLOCK {
            self.send();
        }
        match self.block[self.len..].first_chunk_mut() {
            Some(room) => room,
            None => unreachable!("each block has room behind it"),
        }
    }

    /// Keeps so many bytes of what was written into the room.
    #[inline]
    pub fn wrote(&mut self, len: usize) {
        self.len += len;
    }

    /// Sends the block. The first failure is kept, and nothing is sent behind it.
    #[cold]
    fn send(&mut self) {
        if self.failure.is_none() {
            self.failure = io::stdout().write_all(&self.block[..self.len]).err();
        }
        self.len = 0;
    }

    /// Sends what is left, and says whether all went out.
    pub fn finish(mut self) -> io::Result<()> {
        self.send();
        match self.failure {
            Some(error) => Err(error),
            None => io::stdout().flush(),
        }
    }
}
