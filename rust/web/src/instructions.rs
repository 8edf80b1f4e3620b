//! The instructions of a body.
#![forbid(unsafe_code)]

use crate::answers::{Answer, DONE};
use crate::block::Block;
use crate::fields::{InstructionFields, Locals};
use core::fmt::Write;
use dolzhytik::fallible::{AllocError, Global, ValType, Vec};
use dolzhytik::reader::{DecodeError, Instructions, ReadFault, Readable, Standard};

/// Why the instructions of a body end before its last byte.
struct Stop {
    offset: usize,
    cause: ReadFault,
}

impl Stop {
    /// The error of a decoder of these bytes.
    fn of(bytes: &[u8], error: DecodeError) -> Self {
        Stop {
            offset: bytes.len() - bytes.len().min(error.left() as usize),
            cause: error.cause(),
        }
    }
}

fn put(block: &mut Block, text: core::fmt::Arguments<'_>) -> Result<(), AllocError> {
    block.write_fmt(text).map_err(|_| AllocError)
}

/// Writes the runs of locals and a list of the first instructions, as fields without braces, up to
/// the limit or the first byte that does not decode. Returns why it stopped there.
fn write_body(block: &mut Block, bytes: &[u8], limit: u32) -> Result<Option<Stop>, AllocError> {
    put(block, format_args!("\"locals\":"))?;
    let read = <Vec<(u32, ValType)> as Readable<Global, Standard>>::read(bytes, Global);
    let (runs, rest) = match read {
        Ok(read) => read,
        Err(error) => {
            put(block, format_args!("[],\"instructions\":["))?;
            return Ok(Some(Stop::of(bytes, error)));
        }
    };
    put(block, format_args!("{},\"instructions\":[", Locals(&runs)))?;
    let begun = bytes.len() - rest.len();
    let mut instructions = Instructions::<Global, Standard>::standard(rest, Global);
    for number in 0..limit {
        match instructions.next() {
            Ok(None) => return Ok(None),
            Err(error) => return Ok(Some(Stop::of(bytes, error))),
            Ok(Some(decoded)) => {
                let Ok(args) = decoded.operands.to_args(Global) else {
                    return Err(AllocError);
                };
                let fields = InstructionFields {
                    offset: begun + decoded.offset,
                    size: instructions.offset() - decoded.offset,
                    op: decoded.op,
                    args: &args,
                };
                let comma = if number > 0 { "," } else { "" };
                put(block, format_args!("{comma}{fields}"))?;
            }
        }
    }
    Ok(None)
}

/// The locals and the first instructions of a body, which has no size prefix, as JSON: those before
/// the first byte that does not decode, and the offset and the cause of that.
pub fn instructions(body: &[u8], limit: u32) -> Answer<'_> {
    let mut block = Block::new(DONE)?;
    put(&mut block, format_args!("{{"))?;
    let stop = write_body(&mut block, body, limit)?;
    match stop {
        None => put(&mut block, format_args!("],\"error\":null}}"))?,
        Some(stop) if matches!(stop.cause, ReadFault::Memory) => return Err(AllocError.into()),
        Some(Stop { offset, cause }) => put(
            &mut block,
            format_args!("],\"error\":{{\"offset\":{offset},\"cause\":\"{cause}\"}}}}"),
        )?,
    }
    Ok(block.finish()?)
}
