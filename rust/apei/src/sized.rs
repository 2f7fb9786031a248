use crate::error::{answer, Error};
use alloc::vec::Vec;

const SHORT: u32 = 8;

/// What a call gives that tells how many bytes it wants.
pub(crate) fn sized(mut call: impl FnMut(&mut [u8], &mut u64) -> u32) -> Result<Vec<u8>, Error> {
    let mut size = 0;
    let mut bytes = Vec::new();
    loop {
        match call(&mut bytes, &mut size) {
            SHORT if size as usize > bytes.len() => bytes.resize(size as usize, 0),
            status => {
                answer(status)?;
                bytes.truncate(size as usize);
                return Ok(bytes);
            }
        }
    }
}
