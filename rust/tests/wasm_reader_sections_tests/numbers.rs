// Written by tools/to-rust from tests/wasm_reader_sections_tests/src/numbers.rtt: change that.
// Tests of the numbers of section kinds.

use dolzhytik::reader::SectionKind;

/// The first kind, others, and a number that no kind has: the numbers are those of
/// `dolzhytik.h`.
#[test]
fn numbered() {
    let rt = crate::host::HostRuntime;
    assert_eq!(rt; SectionKind::numbered(0), Some(SectionKind::Bodies));
    assert_eq!(rt; SectionKind::numbered(1), Some(SectionKind::Segments));
    assert_eq!(rt; SectionKind::numbered(2), Some(SectionKind::DataCount));
    assert_eq!(rt; SectionKind::numbered(3), Some(SectionKind::Elements));
    assert_eq!(rt; SectionKind::numbered(4), Some(SectionKind::Exports));
    assert_eq!(rt; SectionKind::numbered(5), Some(SectionKind::Functions));
    assert_eq!(rt; SectionKind::numbered(6), Some(SectionKind::Globals));
    assert_eq!(rt; SectionKind::numbered(7), Some(SectionKind::Imports));
    assert_eq!(rt; SectionKind::numbered(8), Some(SectionKind::Memories));
    assert_eq!(rt; SectionKind::numbered(9), Some(SectionKind::Start));
    assert_eq!(rt; SectionKind::numbered(10), Some(SectionKind::Tables));
    assert_eq!(rt; SectionKind::numbered(11), Some(SectionKind::Tags));
    assert_eq!(rt; SectionKind::numbered(12), Some(SectionKind::Names));
    assert_eq!(rt; SectionKind::numbered(13), Some(SectionKind::Linking));
    assert_eq!(rt; SectionKind::numbered(14), Some(SectionKind::Producers));
    assert_eq!(rt; SectionKind::numbered(15), Some(SectionKind::Hints));
    assert_eq!(rt; SectionKind::numbered(16), Some(SectionKind::Core));
    assert_eq!(rt; SectionKind::numbered(17), Some(SectionKind::CoreModules));
    assert_eq!(rt; SectionKind::numbered(18), Some(SectionKind::CoreInstances));
    assert_eq!(rt; SectionKind::numbered(19), Some(SectionKind::CoreStack));
    assert_eq!(rt; SectionKind::numbered(20), Some(SectionKind::Custom));
    assert_eq!(rt; SectionKind::numbered(21), Some(SectionKind::Raw));
    assert_eq!(rt; SectionKind::numbered(22), Some(SectionKind::Types));
    assert_eq!(rt;
        SectionKind::numbered(23),
        Some(SectionKind::TargetFeatures)
    );
    assert_eq!(rt;
        SectionKind::numbered(24),
        Some(SectionKind::SourceMappingUrl)
    );
    assert_eq!(rt;
        SectionKind::numbered(25),
        Some(SectionKind::ExternalDebugInfo)
    );
    assert_eq!(rt; SectionKind::numbered(26), Some(SectionKind::BuildId));
    assert_eq!(rt; SectionKind::numbered(27), Some(SectionKind::Dylink));
    assert_eq!(rt; SectionKind::numbered(28), Some(SectionKind::Relocations));
    assert_eq!(rt;
        SectionKind::numbered(29),
        Some(SectionKind::InstructionFrequencies)
    );
    assert_eq!(rt;
        SectionKind::numbered(30),
        Some(SectionKind::CompilationOrders)
    );
    assert_eq!(rt; SectionKind::numbered(31), Some(SectionKind::CallTargets));
    assert_eq!(rt; SectionKind::numbered(32), None);
    assert_eq!(rt; SectionKind::numbered(u32::MAX), None)
}
