//! Errors as `std` programs pass them on: each implements `Error`, and its text says what is wrong
//! and where.
use dolzhytik::fallible::{AllocError, AllocFailed, Global, Refused, hex};
use dolzhytik::reader::remap::{
    IndexSpace, IndexTooLarge, RemapError, RemoveError, Shift, remap_module,
};
use dolzhytik::reader::{
    DecodeError, Instructions, ModuleFault, Offsets, Padded, ReadError, ReadFault, Readable,
    Sections,
};
use std::error::Error;

/// Asks for the trait.
fn is_error<T: Error + Send + Sync + 'static>() {}

const _: [fn(); 11] = [
    is_error::<AllocError>,
    is_error::<AllocFailed<()>>,
    is_error::<Refused>,
    is_error::<hex::FromHexError>,
    is_error::<ReadFault>,
    is_error::<DecodeError>,
    is_error::<ReadError>,
    is_error::<ModuleFault>,
    is_error::<RemapError<ReadError>>,
    is_error::<IndexTooLarge>,
    is_error::<RemoveError>,
];

/// Returns the number of instructions of a body without locals.
fn instructions_of(bytes: &[u8]) -> Result<usize, Box<dyn Error>> {
    let mut instructions = Instructions::standard(bytes, Global);
    let mut count = 0;
    while instructions.next()?.is_some() {
        count += 1;
    }
    Ok(count)
}

#[test]
fn errors_of_instructions_are_passed_on() {
    // local.get 0, end.
    assert_eq!(instructions_of(&[0x20, 0x00, 0x0B]).unwrap(), 2);
    let rows: [(&[u8], &str); 4] = [
        // local.get without its index.
        (&[0x20], "unexpected end of input, at the end of the input"),
        // The prefix FF, which no opcode has.
        (
            &[0x01, 0xFF],
            "unknown opcode, 1 byte before the end of the input",
        ),
        (
            &[0x01, 0xFF, 0x01, 0x01],
            "unknown opcode, 3 bytes before the end of the input",
        ),
        // The fifth byte of a number of 32 bits.
        (
            &[0x20, 0xFF, 0xFF, 0xFF, 0xFF, 0x1F, 0x0B],
            "integer too large, 2 bytes before the end of the input",
        ),
    ];
    for (bytes, text) in rows {
        assert_eq!(instructions_of(bytes).unwrap_err().to_string(), text);
    }
}

#[test]
fn errors_of_values_and_sections_are_passed_on() -> Result<(), Box<dyn Error>> {
    let (number, rest) = <u32 as Readable<_, Padded>>::read(&[5, 6], Global)?;
    assert_eq!((number, rest), (5, &[6][..]));
    let name = <&str as Readable<_, Padded>>::read(&[1, 0xFF, 0], Global).unwrap_err();
    assert_eq!(name.cause(), ReadFault::NotUtf8);
    let text = "invalid UTF-8, 2 bytes before the end of the input";
    assert_eq!(Box::<dyn Error>::from(name).to_string(), text);
    let mut sections = Sections::new(Global, b"\0asm\x01\0\0\0\x03\x09\x01")?;
    let error = sections.next().expect("a section").unwrap_err();
    let text = "unexpected end of input at offset 0xb";
    assert_eq!(Box::<dyn Error>::from(error).to_string(), text);
    Ok(())
}

/// It has no place.
#[test]
fn an_error_for_memory_says_no_place() {
    assert_eq!(DecodeError::from(AllocError).to_string(), "out of memory");
}

#[test]
fn errors_of_maps_are_passed_on() {
    let next = |sections: &[u8]| {
        let shift = Shift {
            space: IndexSpace::Functions,
            from: 0,
            by: 1,
        };
        let module = [b"\0asm\x01\0\0\0", sections].concat();
        remap_module(&module, Global, &shift, Offsets::Refuse)
            .unwrap_err()
            .to_string()
    };
    // A start section of the last function.
    let text = next(&[8, 5, 0xFF, 0xFF, 0xFF, 0xFF, 0x0F]);
    let expected = "index 4294967295 of Functions would become more than 4294967295";
    assert_eq!(text, expected);
    let text = next(&[8, 2, 0x80]);
    assert_eq!(text, "unexpected end of input at offset 0xb");
    let text = next(b"\0\x08\x07linking");
    let offsets = "section at offset 0x8: its offsets would become wrong";
    assert_eq!(text, offsets);
    assert_eq!(RemoveError::InUse(7).to_string(), "function 7 is in use");
    let text = RemapError::Index(RemoveError::Imported(0)).to_string();
    assert_eq!(text, "function 0 is imported");
    let text = RemoveError::Unlisted(9).to_string();
    assert_eq!(text, "function 9 is past the end of the list");
    let refused = RemapError::<IndexTooLarge>::from(Refused::Memory);
    assert_eq!(refused.to_string(), Refused::Memory.to_string());
}
