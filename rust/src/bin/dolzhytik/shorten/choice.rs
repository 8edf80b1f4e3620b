//! What becomes of custom sections that depend on other bytes of the module.
use crate::sections::Section;
use dolzhytik::reader::Offsets;

/// The name of the section that identifies a module.
pub const BUILD_ID: &str = "build_id";

/// The names of the sections of hints.
const HINTS: [&str; 4] = [
    "metadata.code.branch_hint",
    "metadata.code.instr_freq",
    "metadata.code.compilation_order",
    "metadata.code.call_targets",
];

/// Whether a section of this name has hints, whose offsets follow their instructions.
pub fn is_of_hints(name: Option<&str>) -> bool {
    name.is_some_and(|it| HINTS.contains(&it))
}

/// What becomes of a section `build_id`, if an option says it.
#[derive(Clone, Copy, PartialEq, Eq, Debug)]
pub enum BuildId {
    Keep,
    Drop,
}

/// What becomes of custom sections that depend on other bytes of the module, and of code.
#[derive(Clone, Copy, PartialEq, Eq, Debug)]
pub struct Choice {
    pub offsets: Offsets,
    /// Whether code and data sections stay byte for byte.
    pub keeps_code: bool,
    pub build_id: Option<BuildId>,
}

impl Choice {
    /// Whether the section is dropped.
    pub fn drops(self, section: &Section<'_>) -> bool {
        match (section.name(), self.build_id) {
            (Some(BUILD_ID), Some(build_id)) => build_id == BuildId::Drop,
            _ => self.offsets == Offsets::LeaveOut && Target::of(section).is_some(),
        }
    }

    /// Whether any section might be dropped.
    pub fn drops_any(self) -> bool {
        self.offsets == Offsets::LeaveOut || self.build_id == Some(BuildId::Drop)
    }
}

/// What the offsets in a custom section point into. [`Offsets`] has the names of these sections.
#[derive(Clone, Copy, PartialEq, Eq, Debug)]
pub enum Target {
    /// Code and data, from the start of a section.
    CodeAndData,
    /// Code, data and custom sections, from the start of a section.
    Relocated,
    /// Code, from the first byte of the module.
    Module,
}

/// What the names of other sections with offsets into code and data begin with.
const CODE_PREFIXES: [&str; 3] = [".debug_", ".apple_", "metadata.code."];

impl Target {
    /// Returns the target of the section's offsets, or `None` if it holds none.
    pub fn of(section: &Section<'_>) -> Option<Self> {
        section.name().and_then(Target::named)
    }

    /// Returns the target of a custom section of this name.
    fn named(name: &str) -> Option<Self> {
        match name {
            "linking" | "external_debug_info" | BUILD_ID | ".gdb_index" => {
                Some(Target::CodeAndData)
            }
            "sourceMappingURL" => Some(Target::Module),
            _ if name.starts_with("reloc.") => Some(Target::Relocated),
            _ if CODE_PREFIXES.iter().any(|it| name.starts_with(it)) => Some(Target::CodeAndData),
            _ => None,
        }
    }
}

#[cfg(test)]
mod tests {
    use super::*;
    use dolzhytik::fallible::Global;
    use dolzhytik::reader::shorten_module;
    use dolzhytik::{CustomSection, Module};

    /// The library drops exactly the sections that have a target.
    #[test]
    fn the_names_are_those_of_the_library() {
        for name in [
            "linking",
            "linking.",
            "external_debug_info",
            "build_id",
            "build-id",
            "sourceMappingURL",
            "reloc.CODE",
            "reloc.",
            "reloc",
            ".debug_info",
            ".debug_",
            ".debug",
            ".gdb_index",
            ".gdb_index2",
            ".apple_names",
            ".apple",
            "reloc..debug_info",
            "metadata.code.branch_hint",
            "metadata.code.",
            "metadata.code",
            "name",
            "producers",
            "target_features",
            "dylink.0",
            "",
        ] {
            let mut module = Module::new();
            module.section(&CustomSection {
                name: name.into(),
                data: [][..].into(),
            });
            let header = Module::new().finish();
            let mut shortened = Vec::new();
            let bytes = module.finish();
            shorten_module(Global, &bytes, Offsets::LeaveOut, &mut shortened).unwrap();
            assert_eq!(Target::named(name).is_some(), shortened == header, "{name}");
        }
    }
}
