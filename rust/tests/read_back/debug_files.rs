// Written by tools/to-rust from crates/read_back/src/debug_files.rt: change that.
//! References to debug information, written and read back: a source map, a file, and the identity
//! of the build.

use dolzhytik::fallible::{Sink, Vec};
use crate::read_back::read_and_shorten;
use dolzhytik::fallible::Allocator;
use dolzhytik::fallible::{Encode, Result};
use dolzhytik::reader::ReadFault;
use dolzhytik::fallible::{BuildId, ExternalDebugInfo, SourceMappingUrl};
use dolzhytik::reader::{Items, SectionKind};

/// Appends the section of a source map.
///
/// # Proved
///
/// ```text
/// ensures { OnOk result (GainsDecoding (size_prefixed source_map_payload) url.now sink.old.items sink.new.items) }
/// ```
fn write_source_map<A: Sink>(sink: &mut A, url: &str) -> Result<()> {
    SourceMappingUrl(url).encode(sink)
}

/// Decodes the section of a source map, and appends its minimal encoding.
///
/// # Asks
///
/// ```text
/// requires { encoding.old.items ≡ [] }
/// ```
///
/// # Proved
///
/// ```text
/// ensures read { IfOk result (λ items. contents_of items ≡ Url url.now) }
/// ensures same { OnOk result (GainsDecoding (size_prefixed source_map_payload) url.now sink.old.items sink.new.items) }
/// ensures memory { IfErr result (λ e. e ≢ Memory → ⊥) }
/// ```
pub fn read_source_map<'a, A: Allocator + Copy + 'a>(
    encoding: &'a mut Vec<u8, A>,
    url: &str,
    sink: &mut Vec<u8, A>,
) -> Result<Items<'a, A>, ReadFault> {
    write_source_map(encoding, url)?;
    let items = read_and_shorten(SectionKind::SourceMappingUrl, encoding, sink)?;
    Ok(items)
}

/// Appends the section of a file of debug information.
///
/// # Proved
///
/// ```text
/// ensures { OnOk result (GainsDecoding (size_prefixed debug_file_payload) path.now sink.old.items sink.new.items) }
/// ```
fn write_debug_file<A: Sink>(sink: &mut A, path: &str) -> Result<()> {
    ExternalDebugInfo(path).encode(sink)
}

/// Decodes the section of a file of debug information, and appends its minimal encoding.
///
/// # Asks
///
/// ```text
/// requires { encoding.old.items ≡ [] }
/// ```
///
/// # Proved
///
/// ```text
/// ensures read { IfOk result (λ items. contents_of items ≡ Path path.now) }
/// ensures same { OnOk result (GainsDecoding (size_prefixed debug_file_payload) path.now sink.old.items sink.new.items) }
/// ensures memory { IfErr result (λ e. e ≢ Memory → ⊥) }
/// ```
pub fn read_debug_file<'a, A: Allocator + Copy + 'a>(
    encoding: &'a mut Vec<u8, A>,
    path: &str,
    sink: &mut Vec<u8, A>,
) -> Result<Items<'a, A>, ReadFault> {
    write_debug_file(encoding, path)?;
    let items = read_and_shorten(SectionKind::ExternalDebugInfo, encoding, sink)?;
    Ok(items)
}

/// Appends the section of a build's identity.
///
/// # Proved
///
/// ```text
/// ensures { OnOk result (GainsDecoding (size_prefixed build_id_payload) bytes.now sink.old.items sink.new.items) }
/// ```
fn write_build_id<A: Sink>(sink: &mut A, bytes: &[u8]) -> Result<()> {
    BuildId(bytes).encode(sink)
}

/// Decodes the section of a build's identity, and appends its minimal encoding.
///
/// # Asks
///
/// ```text
/// requires { encoding.old.items ≡ [] }
/// ```
///
/// # Proved
///
/// ```text
/// ensures read { IfOk result (λ items. contents_of items ≡ Build bytes.now) }
/// ensures same { OnOk result (GainsDecoding (size_prefixed build_id_payload) bytes.now sink.old.items sink.new.items) }
/// ensures memory { IfErr result (λ e. e ≢ Memory → ⊥) }
/// ```
pub fn read_build_id<'a, A: Allocator + Copy + 'a>(
    encoding: &'a mut Vec<u8, A>,
    bytes: &[u8],
    sink: &mut Vec<u8, A>,
) -> Result<Items<'a, A>, ReadFault> {
    write_build_id(encoding, bytes)?;
    let items = read_and_shorten(SectionKind::BuildId, encoding, sink)?;
    Ok(items)
}
