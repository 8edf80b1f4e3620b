//! The program of docs/MOVING.md that adds an imported function, as that page shows it.
use dolzhytik as wasm_encoder;

use std::convert::Infallible;
use wasm_encoder::fallible::{self, EntityType, Import, Imports};
use wasm_encoder::reader::{Offsets, Reencode, ReencodeError};

/// Imports the function `log` of `host`, of type 0, before all other functions.
struct AddImport;

impl Reencode for AddImport {
    type Error = Infallible;

    fn function_index(&mut self, index: u32) -> Result<u32, Infallible> {
        Ok(index + 1)
    }

    fn import_section(
        &mut self,
        imports: &mut fallible::Vec<Imports<'_>>,
    ) -> Result<(), ReencodeError<Infallible>> {
        imports.push(Imports::Single(Import {
            module: "host",
            name: "log",
            ty: EntityType::Function(0),
        }))?;
        // It is function 0, and so before all others.
        imports.rotate_right(1);
        Ok(())
    }
}

fn with_import(module: &[u8]) -> Result<Vec<u8>, ReencodeError<Infallible>> {
    AddImport.reencode_module(module, Offsets::LeaveOut)
}

/// Checks what the module of the sections becomes.
#[track_caller]
fn check(sections: &str, expected: &str) {
    let module = |sections| crate::checks::bytes_of(&format!("0061736d01000000 {sections}"));
    assert_eq!(with_import(&module(sections)).unwrap(), module(expected));
}

#[test]
fn the_program_adds_its_import() {
    let [types, functions] = ["01 04 01 60 00 00", "03 02 01 00"];
    // An export of function 0, and its body, which calls it.
    let [exports, code] = ["07 05 01 01 66 00 00", "0a 06 01 04 00 10 00 0b"];
    let [shifted, calling] = ["07 05 01 01 66 00 01", "0a 06 01 04 00 10 01 0b"];
    let log = "04 686f7374 03 6c6f67 00 00";
    check(
        &format!("{types} {functions} {exports} {code}"),
        &format!("{types} 02 0c 01 {log} {functions} {shifted} {calling}"),
    );
    // An imported function, which is function 1 after.
    check(
        &format!("{types} 02 07 01 01 6d 01 67 00 00 {exports}"),
        &format!("{types} 02 12 02 {log} 01 6d 01 67 00 00 {shifted}"),
    );
    check("", &format!("02 0c 01 {log}"));
}
