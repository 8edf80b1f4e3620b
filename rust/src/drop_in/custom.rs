//! Custom sections, and the lists that they hold.
use super::NONE;
use crate::custom::{self, CountedList, CustomEntries, joined};
use crate::ending::Root;
use core::marker::PhantomData;

builders! {
    custom, (fn) = CountedList { entries: NONE, kind: PhantomData };
    NameMap { Clone } { Default } { Encode } { Debug bytes count }
    IndirectNameMap { Clone } { Default } { Encode } { Debug bytes count }
    SymbolTable { Clone } { Default } { Encode } { Debug bytes num_added }
    ProducersField { Clone } { Default } { Encode } { Debug bytes num_values }
}

builders! {
    custom, (fn) = CustomEntries { entries: NONE, kind: PhantomData };
    NameSection { Clone } { Default } { Section Custom } { Debug bytes }
    LinkingSection { Clone } { Default } { Section Custom }
    ProducersSection { Clone } { Default } { Section Custom } { Debug bytes num_fields }
    BranchHints { Default } { Section Custom } { Debug bytes num_hints }
    CoreDumpModulesSection { Section Custom } { Debug num_added bytes }
    CoreDumpInstancesSection { Section Custom } { Debug num_added bytes }
}

/// The first byte of an entry of a core dump.
pub const MARK: u8 = 0x00;

#[doc = text!(CoreDumpSection)]
pub struct CoreDumpSection(pub(super) custom::CoreDumpSection);

implement!(CoreDumpSection Clone);
implement!(CoreDumpSection Default "");
implement!(CoreDumpSection Section Custom);
implement!(CoreDumpSection From custom |built| built);

#[doc = text!(CoreDumpStackSection)]
pub struct CoreDumpStackSection(pub(super) joined::CoreDumpStackSection<Root>);

implement!(CoreDumpStackSection Clone);
implement!(CoreDumpStackSection Default "");
implement!(CoreDumpStackSection Section Custom);
implement!(CoreDumpStackSection From custom |built| joined::CoreDumpStackSection {
    front: built.front.into_ending(),
    frames: built.frames.into(),
});
