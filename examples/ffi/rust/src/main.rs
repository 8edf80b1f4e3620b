//! Assembles recipes, lists and outlines what modules hold, and shortens padded sections and
//! modules.

const NO_ANSWER: u64 = u64::MAX;

#[derive(Clone, Copy, Default)]
#[repr(C)]
struct Section {
    items: u64,
    size: u32,
    id: u32,
}

#[derive(Clone, Copy, Default)]
#[repr(C)]
struct Outlined {
    items: u64,
    offset: u64,
    name_offset: u64,
    name_size: u64,
    size: u32,
    id: u32,
}

unsafe extern "C" {
    fn dz_assemble(
        recipe: *const u8,
        recipe_len: usize,
        out: *mut u8,
        out_len: usize,
        line: *mut u64,
        cause: *mut u32,
    ) -> u64;
    fn dz_assemble_versioned(
        recipe: *const u8,
        recipe_len: usize,
        out: *mut u8,
        out_len: usize,
        line: *mut u64,
        cause: *mut u32,
    ) -> u64;
    fn dz_list(
        module: *const u8,
        module_len: usize,
        out: *mut Section,
        out_len: usize,
        number: *mut u64,
        cause: *mut u32,
    ) -> u64;
    fn dz_shorten(
        kind: u32,
        bytes: *const u8,
        bytes_len: usize,
        out: *mut u8,
        out_len: usize,
        taken: *mut u64,
        cause: *mut u32,
    ) -> u64;
    fn dz_outline(
        module: *const u8,
        module_len: usize,
        out: *mut Outlined,
        out_len: usize,
        number: *mut u64,
        cause: *mut u32,
    ) -> u64;
    fn dz_shorten_module(
        module: *const u8,
        module_len: usize,
        drop_offsets: u32,
        out: *mut u8,
        out_len: usize,
        kept: *mut u64,
        number: *mut u64,
        cause: *mut u32,
    ) -> u64;
    fn dz_remap_module(
        module: *const u8,
        module_len: usize,
        space: u32,
        indices: *const u32,
        indices_len: usize,
        drop_offsets: u32,
        out: *mut u8,
        out_len: usize,
        offset: *mut u64,
        cause: *mut u32,
    ) -> u64;
    fn dz_insert_import(
        module: *const u8,
        module_len: usize,
        module_name: *const u8,
        module_name_len: usize,
        name: *const u8,
        name_len: usize,
        type_index: u32,
        drop_offsets: u32,
        out: *mut u8,
        out_len: usize,
        offset: *mut u64,
        cause: *mut u32,
    ) -> u64;
    fn dz_cause(cause: u32, out: *mut u8, out_len: usize) -> u64;
    fn dz_recipe_cause(cause: u32, out: *mut u8, out_len: usize) -> u64;
}

// Kinds of sections; the header names them all.
const FUNCTIONS: u32 = 5;
const GLOBALS: u32 = 6;
const TAGS: u32 = 11;
const NAMES: u32 = 12;

// Index spaces; the header names them all.
const SPACE_FUNCTIONS: u32 = 0;
const SPACE_TYPES: u32 = 1;

/// Returns the text of a cause, by a call that writes it.
fn text(text_of: unsafe extern "C" fn(u32, *mut u8, usize) -> u64, cause: u32) -> String {
    let mut out = vec![0; 32];
    // SAFETY: slices are valid for their lengths, and none overlaps another.
    let size = unsafe { text_of(cause, out.as_mut_ptr(), out.len()) };
    match usize::try_from(size) {
        Ok(size) if size <= out.len() => {
            out.truncate(size);
            String::from_utf8_lossy(&out).into_owned()
        }
        _ => format!("cause {cause}"),
    }
}

/// The result of a call: the module of a recipe, or its length if the buffer is too small, or the
/// line and the cause of the first error.
enum Answer {
    Module(Vec<u8>),
    Size(u64),
    Fault(u64, u32),
}

/// `dz_assemble` or `dz_assemble_versioned`.
type Assembler = unsafe extern "C" fn(*const u8, usize, *mut u8, usize, *mut u64, *mut u32) -> u64;

fn assembled(call: Assembler, recipe: &[u8], room: usize) -> Answer {
    let (mut out, mut line, mut cause) = (vec![0; room], 0, 0);
    // SAFETY: as above.
    let size = unsafe {
        call(
            recipe.as_ptr(),
            recipe.len(),
            out.as_mut_ptr(),
            out.len(),
            &mut line,
            &mut cause,
        )
    };
    match usize::try_from(size) {
        _ if size == NO_ANSWER => Answer::Fault(line, cause),
        Ok(size) if size <= room => {
            out.truncate(size);
            Answer::Module(out)
        }
        _ => Answer::Size(size),
    }
}

/// Returns the sections of a module, or the number of the section and the cause.
fn listed(module: &[u8]) -> Result<Vec<Section>, (u64, u32)> {
    let (mut out, mut number, mut cause) = (Vec::new(), 0, 0);
    loop {
        // SAFETY: as above.
        let count = unsafe {
            dz_list(
                module.as_ptr(),
                module.len(),
                out.as_mut_ptr(),
                out.len(),
                &mut number,
                &mut cause,
            )
        };
        if count == NO_ANSWER {
            return Err((number, cause));
        }
        if count as usize <= out.len() {
            return Ok(out);
        }
        out.resize(count as usize, Section::default());
    }
}

fn list(module: &[u8]) {
    match listed(module) {
        Ok(sections) => {
            for section in sections {
                let items = match section.items {
                    NO_ANSWER => "-".to_string(),
                    items => items.to_string(),
                };
                println!("{} {} {items}", section.id, section.size);
            }
        }
        Err((number, cause)) => println!("section {number}: {}", text(dz_cause, cause)),
    }
}

fn assemble(recipe: &[u8], room: usize) {
    assemble_by(dz_assemble, recipe, room);
}

fn assemble_by(call: Assembler, recipe: &[u8], room: usize) {
    match assembled(call, recipe, room) {
        Answer::Module(module) => {
            let digits: String = module.iter().map(|byte| format!("{byte:02x}")).collect();
            println!("{digits}");
            list(&module);
        }
        Answer::Size(size) => println!("{size} bytes, and room for {room}"),
        Answer::Fault(line, cause) => println!("line {line}: {}", text(dz_recipe_cause, cause)),
    }
}

/// Returns the minimal encoding of the section of a kind, and the length of the section in the
/// input; or the cause of the error. The encoding is no longer than the input.
fn shortened(kind: u32, bytes: &[u8]) -> Result<(Vec<u8>, u64), u32> {
    let (mut out, mut taken, mut cause) = (vec![0; bytes.len()], 0, 0);
    // SAFETY: as above.
    let size = unsafe {
        dz_shorten(
            kind,
            bytes.as_ptr(),
            bytes.len(),
            out.as_mut_ptr(),
            out.len(),
            &mut taken,
            &mut cause,
        )
    };
    if size == NO_ANSWER {
        return Err(cause);
    }
    out.truncate(size as usize);
    Ok((out, taken))
}

fn shorten(kind: u32, bytes: &[u8]) {
    match shortened(kind, bytes) {
        Ok((text, taken)) => {
            let digits: String = text.iter().map(|byte| format!(" {byte:02x}")).collect();
            println!("{taken}:{digits}");
        }
        Err(cause) => println!("{}", text(dz_cause, cause)),
    }
}

/// Returns the outline of a module, or the number of the section and the cause. No module has more
/// sections than bytes.
fn outlined(module: &[u8]) -> Result<Vec<Outlined>, (u64, u32)> {
    let (mut out, mut number, mut cause) = (vec![Outlined::default(); module.len()], 0, 0);
    // SAFETY: as above.
    let count = unsafe {
        dz_outline(
            module.as_ptr(),
            module.len(),
            out.as_mut_ptr(),
            out.len(),
            &mut number,
            &mut cause,
        )
    };
    if count == NO_ANSWER {
        return Err((number, cause));
    }
    out.truncate(count as usize);
    Ok(out)
}

fn outline(module: &[u8]) {
    match outlined(module) {
        Ok(sections) => {
            for section in sections {
                print!(
                    "{} at {}, {} bytes",
                    section.id, section.offset, section.size
                );
                if section.items != NO_ANSWER {
                    print!(", {} items", section.items);
                }
                if section.name_size != NO_ANSWER {
                    let name =
                        &module[section.name_offset as usize..][..section.name_size as usize];
                    print!(", {}", String::from_utf8_lossy(name));
                }
                println!();
            }
        }
        Err((number, cause)) => println!("section {number}: {}", text(dz_cause, cause)),
    }
}

/// Returns the minimal encoding of a module, and the number of sections that are kept; or the
/// number of the section and the cause of the error. The encoding is no longer than the module.
fn shortened_module(module: &[u8], drop_offsets: u32) -> Result<(Vec<u8>, u64), (u64, u32)> {
    let (mut out, mut kept, mut number, mut cause) = (vec![0; module.len()], 0, 0, 0);
    // SAFETY: as above.
    let size = unsafe {
        dz_shorten_module(
            module.as_ptr(),
            module.len(),
            drop_offsets,
            out.as_mut_ptr(),
            out.len(),
            &mut kept,
            &mut number,
            &mut cause,
        )
    };
    if size == NO_ANSWER {
        return Err((number, cause));
    }
    out.truncate(size as usize);
    Ok((out, kept))
}

fn shorten_module(module: &[u8], drop_offsets: u32) {
    match shortened_module(module, drop_offsets) {
        Ok((text, kept)) => {
            let digits: String = text.iter().map(|byte| format!(" {byte:02x}")).collect();
            println!("{kept} kept:{digits}");
        }
        Err((number, cause)) => println!("section {number}: {}", text(dz_cause, cause)),
    }
}

/// Prints the bytes of an edited module, or the offset and the cause of the error.
fn say_edited(size: u64, out: &[u8], offset: u64, cause: u32) {
    if size == NO_ANSWER {
        println!("at {offset}: {}", text(dz_cause, cause));
    } else {
        let module = &out[..size as usize];
        let digits: String = module.iter().map(|byte| format!("{byte:02x}")).collect();
        println!("{digits}");
    }
}

/// Replaces the indices of a space, and prints the module.
fn remap(module: &[u8], space: u32, indices: &[u32]) {
    let (mut out, mut offset, mut cause) = ([0; 256], 0, 0);
    // SAFETY: as above.
    let size = unsafe {
        dz_remap_module(
            module.as_ptr(),
            module.len(),
            space,
            indices.as_ptr(),
            indices.len(),
            0,
            out.as_mut_ptr(),
            out.len(),
            &mut offset,
            &mut cause,
        )
    };
    say_edited(size, &out, offset, cause);
}

/// Inserts an import of a function of type 0 from `host`, and prints the module.
fn insert(module: &[u8], name: &[u8], drop_offsets: u32) {
    let (mut out, mut offset, mut cause) = ([0; 256], 0, 0);
    // SAFETY: as above.
    let size = unsafe {
        dz_insert_import(
            module.as_ptr(),
            module.len(),
            b"host".as_ptr(),
            4,
            name.as_ptr(),
            name.len(),
            0,
            drop_offsets,
            out.as_mut_ptr(),
            out.len(),
            &mut offset,
            &mut cause,
        )
    };
    say_edited(size, &out, offset, cause);
}

/// A function that calls itself and is exported.
const CALLS: &[u8] =
    b"\0asm\x01\0\0\0\x01\x04\x01\x60\0\0\x03\x02\x01\0\x07\x05\x01\x01f\0\0\x0A\x06\x01\x04\0\x10\0\x0B";

/// A type, a custom section of padded numbers called `name`, one without a name, and a function
/// section that counts seven functions and ends before them.
const OUTLINED: &[u8] =
    b"\0asm\x01\0\0\0\x01\x04\x01\x60\0\0\0\x87\0\x84\0name\xFF\0\x01\x05\x03\x01\x07";

/// A padded code section, and symbols, which hold offsets into it.
const SYMBOLS: &[u8] = b"\0asm\x01\0\0\0\x0A\x84\0\x01\x02\0\x0B\0\x08\x07linking";

fn main() {
    let module = b"type 60027f7f017f\nfunc 0\nexport f func 0\nbody 200020016a0b";
    assemble(module, 256);
    assemble(module, 38);
    assemble(module, 0);
    assemble(b"", 256);
    assemble(b"body 0b\nbody zz", 256);
    assemble(b"\xFF", 256);
    let second = b"version 2\nlocals 1 i32\nbody 20000b # local 0";
    assemble_by(dz_assemble_versioned, second, 256);
    assemble_by(dz_assemble_versioned, b"version 2\nfunc 0 1", 256);
    list(b"\0asm\x01\0\0\0\x03\x01\x00\x00\x01\x05");
    list(b"\0asm");
    shorten(FUNCTIONS, b"\x86\x00\x01\x85\x80\x80\x80\x00");
    shorten(GLOBALS, b"\x0A\x01\x7F\x00\x41\xFF\xFF\xFF\xFF\x7F\x0B");
    shorten(NAMES, b"\x0C\x84\x00name\x00\x83\x00\x82\x00m");
    shorten(NAMES, b"\x0C\x84\x00name\x00\x83\x00\x81\x00m");
    shorten(TAGS, b"\x03\x01\x01\x00");
    shorten(32, b"");
    outline(OUTLINED);
    outline(&OUTLINED[..9]);
    shorten_module(OUTLINED, 0);
    shorten_module(SYMBOLS, 0);
    shorten_module(SYMBOLS, 1);
    shorten_module(&OUTLINED[..9], 1);
    remap(CALLS, SPACE_FUNCTIONS, &[7]);
    remap(CALLS, SPACE_FUNCTIONS, &[]);
    remap(CALLS, 8, &[7]);
    remap(SYMBOLS, SPACE_TYPES, &[7]);
    insert(CALLS, b"hit", 0);
    insert(CALLS, b"\xFF", 0);
    insert(SYMBOLS, b"hit", 1);
}
