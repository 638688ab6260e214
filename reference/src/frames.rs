//! Frames: a length of 4 bytes (low byte first, at most 65,536) and that many bytes.

use std::io::{self, Error, ErrorKind, Read};

const FRAME_MOST: usize = 65_536;

/// Puts a frame behind what is there.
pub fn put(out: &mut Vec<u8>, frame: &[u8]) {
    out.extend((frame.len() as u32).to_le_bytes());
    out.extend(frame);
}

/// The next frame, or none at the end of the input. An end inside a frame or
/// a length too large is an error.
pub fn next(input: &mut impl Read) -> io::Result<Option<Vec<u8>>> {
    let mut head = Vec::new();
    input.by_ref().take(4).read_to_end(&mut head)?;
    if head.is_empty() {
        return Ok(None);
    }
    let head: [u8; 4] = head.try_into().map_err(|_| Error::from(ErrorKind::UnexpectedEof))?;
    let length = u32::from_le_bytes(head) as usize;
    if length > FRAME_MOST {
        return Err(Error::new(ErrorKind::InvalidData, "frame too long"));
    }
    let mut frame = vec![0; length];
    input.read_exact(&mut frame)?;
    Ok(Some(frame))
}
