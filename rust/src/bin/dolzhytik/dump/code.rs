//! Lists the code section.
use crate::context::{Context, Space};
use crate::cursor::Cursor;
use crate::dump::Stop;
use crate::dump::listing::{Function, Line, Listing, Locals};
use crate::dump::operands::Operands;
use crate::dump::relocations::Patches;
use crate::names::name_of;
use crate::sections::Section;
use dolzhytik::fallible::{Global, Op, ValType};
use dolzhytik::reader::{CodeBody, Instructions, Standard};
use std::io::Write;

/// Lists each function that is selected by its index: its locals and its instructions.
pub fn list_code(
    section: &Section<'_>,
    context: &Context<'_>,
    is_listed: impl Fn(u32) -> bool,
    patches: &mut Patches<'_>,
    listing: &mut Listing<impl Write>,
) -> Result<(), Stop> {
    let imported = context.imported(Space::Function);
    for (number, code) in section.bodies()?.enumerate() {
        let code = code?;
        // The reader accepts up to 4294967295 imports and as many bodies.
        let index = imported.saturating_add(number as u32);
        if !is_listed(index) {
            patches.before(code.offset() + code.bytes().len());
            continue;
        }
        let function = Function {
            index,
            name: context.name(Space::Function, index),
            ty: context.type_of(index),
            offset: code.offset(),
            size: code.bytes().len(),
        };
        listing.function(&function)?;
        let mut body = Body {
            code,
            cursor: Cursor::new(code.bytes(), code.offset()),
            context,
            depth: 0,
        };
        body.list(index, patches, listing)?;
    }
    Ok(())
}

/// The body of a function.
struct Body<'a, 'c> {
    code: CodeBody<'a>,
    cursor: Cursor<'a>,
    context: &'c Context<'a>,
    /// How many blocks the next instruction is in.
    depth: usize,
}

impl Body<'_, '_> {
    /// Lists the body, and keeps nothing of it: neither its locals nor its instructions.
    fn list(
        &mut self,
        function: u32,
        patches: &mut Patches<'_>,
        listing: &mut Listing<impl Write>,
    ) -> Result<(), Stop> {
        self.list_locals(function, listing)?;
        let (offset, bytes) = (self.cursor.offset(), self.cursor.rest());
        let mut instructions = Instructions::<Global, Standard>::standard(bytes, Global);
        while let Some(decoded) = instructions
            .next()
            .map_err(|error| self.code.locate(error))?
        {
            let op = decoded.op;
            let args = decoded.operands.to_args(Global);
            let args = args.map_err(|error| self.code.locate(error))?;
            listing.line(&Line {
                offset: offset + decoded.offset,
                bytes: &bytes[decoded.offset..instructions.offset()],
                depth: self.depth_of(op),
                name: name_of(op).unwrap_or_default(),
                operands: Operands {
                    op,
                    args: &args,
                    context: self.context,
                },
                patches: patches.before(offset + instructions.offset()),
            })?;
        }
        Ok(())
    }

    /// Lists the runs of locals with their indices, which are those after the parameters.
    fn list_locals(
        &mut self,
        function: u32,
        listing: &mut Listing<impl Write>,
    ) -> Result<(), Stop> {
        let parameters = self.context.parameters_of(function).map(u64::from);
        let mut before = 0;
        let runs: u32 = self.cursor.read()?;
        for _ in 0..runs {
            let begun = self.cursor;
            let (count, ty): (u32, ValType) = self.cursor.read()?;
            let size = self.cursor.offset() - begun.offset();
            listing.locals(Locals {
                offset: begun.offset(),
                bytes: &begun.rest()[..size],
                parameters,
                before,
                count,
                ty,
            })?;
            before += u64::from(count);
        }
        Ok(())
    }

    /// Returns how many blocks the instruction is in, and notes whether it begins or ends one.
    fn depth_of(&mut self, op: Op) -> usize {
        let outer = self.depth.saturating_sub(1);
        match op {
            // `block`, `loop`, `if`, `try` and `try_table`.
            Op::Byte(0x02 | 0x03 | 0x04 | 0x06 | 0x1F) => {
                self.depth += 1;
                self.depth - 1
            }
            // `else`, `catch` and `catch_all`.
            Op::Byte(0x05 | 0x07 | 0x19) => outer,
            // `end` and `delegate`.
            Op::Byte(0x0B | 0x18) => {
                self.depth = outer;
                outer
            }
            _ => self.depth,
        }
    }
}

#[cfg(test)]
#[test]
fn every_instruction_has_a_name_and_nothing_else_has() {
    let bytes = (0..=255).map(Op::Byte);
    let prefixed = (0xFB..=0xFE).flat_map(|byte| (0..1000).map(move |it| Op::Prefixed(byte, it)));
    let ops: Vec<Op> = bytes.chain(prefixed).collect();
    let named = ops.iter().filter(|op| name_of(**op).is_some()).count();
    assert_eq!(named, 627);
    for op in ops {
        assert_eq!(name_of(op).is_some(), op.shape().is_some(), "{op:?}");
    }
}
