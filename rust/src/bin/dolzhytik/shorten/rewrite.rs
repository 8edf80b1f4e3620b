//! Writes the sections of a module in their minimal encodings, one by one.
use crate::failure::Failure;
use crate::files::Input;
use crate::sections::Section;
use crate::shorten::savings::Saving;
use dolzhytik::fallible::{self, Encode, Global};
use dolzhytik::reader::{Items, ReadError, ReadFault, encode_items};

/// What is written for a section.
pub enum Written {
    /// Its bytes, which are minimal.
    Same,
    /// Its bytes, which do not decode, or are to stay.
    Kept,
    /// Other bytes: the id and the size prefix, and the payload.
    Other {
        front: Vec<u8>,
        payload: fallible::Vec<u8>,
    },
    Dropped,
}

/// A section, and what is written for it.
pub struct Rewrite<'a> {
    pub section: Section<'a>,
    pub written: Written,
}

impl<'a> Rewrite<'a> {
    pub fn of(section: Section<'a>, written: Written) -> Self {
        Rewrite { section, written }
    }

    /// Writes the minimal encoding of the section, or its bytes if it does not decode as its kind.
    /// That is what `shorten_module` writes for it, without a second copy of the payload in memory.
    pub fn minimal(input: &Input, section: Section<'a>) -> Result<Self, Failure> {
        let payload = minimal_payload(&section).and_then(|payload| written(&section, payload));
        let written = match payload {
            Ok(written) => written,
            Err(ReadFault::Memory) => return Err(out_of_memory(input, &section)),
            Err(_) => Written::Kept,
        };
        Ok(Rewrite::of(section, written))
    }

    /// Writes the minimal encoding of other items, which take no more bytes than the section's.
    pub fn set(&mut self, input: &Input, items: &Items<'_>) -> Result<(), Failure> {
        let mut payload = fallible::Vec::new(Global);
        let encoded = encode_items(items, &mut payload).map_err(ReadFault::from);
        self.written = encoded
            .and_then(|()| written(&self.section, payload))
            .map_err(|_| out_of_memory(input, &self.section))?;
        Ok(())
    }

    /// What becomes of the section.
    pub fn saving(&self) -> Saving<'a> {
        let is_dropped = matches!(self.written, Written::Dropped);
        Saving {
            section: self.section,
            after: (!is_dropped).then(|| self.size()),
        }
    }

    /// The payload that is written.
    pub fn payload(&self) -> &[u8] {
        match &self.written {
            Written::Same | Written::Kept => self.section.payload(),
            Written::Other { payload, .. } => payload,
            Written::Dropped => b"",
        }
    }

    /// The bytes that are written, in two parts.
    pub fn parts(&self) -> [&[u8]; 2] {
        match &self.written {
            Written::Same | Written::Kept => [self.section.bytes(), b""],
            Written::Other { front, payload } => [front, payload],
            Written::Dropped => [b"", b""],
        }
    }

    /// The number of bytes that are written.
    pub fn size(&self) -> usize {
        self.parts().map(<[u8]>::len).iter().sum()
    }

    pub fn is_changed(&self) -> bool {
        matches!(self.written, Written::Other { .. })
    }

    pub fn is_kept(&self) -> bool {
        matches!(self.written, Written::Kept)
    }
}

fn out_of_memory(input: &Input, section: &Section<'_>) -> Failure {
    let (cause, offset) = (ReadFault::Memory, 0);
    section.failure(input, ReadError { cause, offset })
}

/// Returns what is written for a section that has this payload then.
fn written(section: &Section<'_>, payload: fallible::Vec<u8>) -> Result<Written, ReadFault> {
    let mut front = vec![section.id()];
    // The payload is no longer than that of the section, whose size has 32 bits.
    (payload.len() as u32).encode(&mut front)?;
    let is_same = section.bytes().strip_prefix(&front[..]) == Some(&payload[..]);
    Ok(if is_same {
        Written::Same
    } else {
        Written::Other { front, payload }
    })
}

/// Returns the minimal encoding of the payload.
fn minimal_payload(section: &Section<'_>) -> Result<fallible::Vec<u8>, ReadFault> {
    let mut payload = fallible::Vec::with_capacity(Global, section.payload().len())?;
    section
        .minimize(&mut payload)
        .map_err(|error| error.cause)?;
    Ok(payload)
}
