//! Failing calls at the root: a length that cannot be encoded is a panic before an item is
//! requested, and a failed allocation ends the program.
use crate::checks::encoded;
use dolzhytik::*;
use std::cell::Cell;

/// Yields as many items as it reports, all equal, and counts the requests.
struct Items<'a, T> {
    left: usize,
    item: T,
    asked: &'a Cell<usize>,
}

impl<T: Clone> Iterator for Items<'_, T> {
    type Item = T;

    fn next(&mut self) -> Option<T> {
        self.asked.set(self.asked.get() + 1);
        self.left = self.left.checked_sub(1)?;
        Some(self.item.clone())
    }

    fn size_hint(&self) -> (usize, Option<usize>) {
        (self.left, Some(self.left))
    }
}

impl<T: Clone> ExactSizeIterator for Items<'_, T> {}

/// The least length that 32 bits cannot represent.
const TOO_LONG: usize = 1 << 32;

/// Checks that the call panics because the length is too long, and requests no item. The call
/// receives a function that makes such an iterator.
fn panics<T: Clone, R>(item: T, call: impl FnOnce(&dyn Fn() -> Items<'static, T>) -> R) {
    use std::panic::{AssertUnwindSafe, catch_unwind};

    let asked: &'static Cell<usize> = Box::leak(Box::default());
    let long = || Items {
        left: TOO_LONG,
        item: item.clone(),
        asked,
    };
    let panic = catch_unwind(AssertUnwindSafe(|| {
        call(&long);
    }))
    .expect_err("it panics");
    let text = panic.downcast_ref::<&str>().expect("a text");
    assert!(text.starts_with("too long"), "{text}");
    assert_eq!(asked.get(), 0);
}

#[test]
fn lists_of_values_and_instructions() {
    let mut sink = vec![7];
    panics(1_u32, |long| encode_vec(long(), &mut sink));
    panics(1_u32, |_| TOO_LONG.encode(&mut sink));

    let mut calls = InstructionSink::new(&mut sink);
    panics(1_u32, |long| {
        calls.br_table(long(), 0);
    });
    panics(Catch::All { label: 0 }, |long| {
        calls.try_table(BlockType::Empty, long());
    });
    let handle = Handle::OnSwitch { tag: 0 };
    panics(handle.clone(), |long| {
        calls.resume(0, long());
    });
    panics(handle.clone(), |long| {
        calls.resume_throw(0, 0, long());
    });
    panics(handle, |long| {
        calls.resume_throw_ref(0, long());
    });
    assert_eq!(sink, [7]);
}

#[test]
fn locals_and_data() {
    panics((1, ValType::I32), |long| Function::new(long()));

    let mut data = DataSection::new();
    let offset = ConstExpr::i32_const(0);
    panics(9_u8, |long| {
        data.passive(long());
    });
    panics(9_u8, |long| {
        data.active(0, &offset, long());
    });
    panics(9_u8, |long| {
        data.segment(DataSegment {
            mode: DataSegmentMode::Passive,
            data: long(),
        });
    });
    assert_eq!((data.len(), encoded(&data)), (0, vec![1, 0]));
}

#[test]
fn types() {
    let mut types = TypeSection::new();
    panics(ValType::I32, |long| types.ty().function(long(), []));
    panics(ValType::I32, |long| types.ty().function([], long()));
    let field = FieldType {
        element_type: StorageType::I8,
        mutable: true,
    };
    panics(field, |long| types.ty().struct_(long()));
    let ty = SubType {
        is_final: true,
        supertype_idx: None,
        composite_type: CompositeType {
            inner: CompositeInnerType::Array(ArrayType(field)),
            shared: false,
            descriptor: None,
            describes: None,
        },
    };
    panics(ty, |long| types.ty().rec(long()));
    assert_eq!((types.len(), encoded(&types)), (0, vec![1, 0]));
}

#[test]
fn hints_and_core_dumps() {
    let mut hints = BranchHints::new();
    let hint = BranchHint {
        branch_func_offset: 0,
        branch_hint_value: 0,
    };
    panics(hint, |long| hints.function_hints(0, long()));
    assert_eq!(hints.len(), 0);

    let mut instances = CoreDumpInstancesSection::new();
    panics(1, |long| {
        instances.instance(0, long(), []);
    });
    panics(1, |long| {
        instances.instance(0, [], long());
    });
    assert_eq!(instances.len(), 0);

    let mut stack = CoreDumpStackSection::new("");
    let before = encoded(&stack);
    panics(CoreDumpValue::Missing, |long| {
        stack.frame(0, 0, 0, long(), []);
    });
    panics(CoreDumpValue::Missing, |long| {
        stack.frame(0, 0, 0, [], long());
    });
    assert_eq!(encoded(&stack), before);
}

/// What the test below runs, in a process of its own that may have less memory than this asks for.
#[test]
#[ignore = "it ends the program"]
fn more_than_there_is() {
    let asked = Cell::new(0);
    let longest = Items {
        left: TOO_LONG - 1,
        item: 0_u8,
        asked: &asked,
    };
    DataSection::new().passive(longest);
}

/// On other systems `ulimit -v` is no limit.
#[test]
#[cfg(target_os = "linux")]
fn memory_that_is_refused() {
    let child = std::process::Command::new("sh")
        .args(["-c", "ulimit -v 2000000 && exec \"$0\" \"$@\""])
        .arg(std::env::current_exe().unwrap())
        .args(["--ignored", "--exact", "refusals::more_than_there_is"])
        .args(["--nocapture", "--test-threads", "1"])
        .output()
        .unwrap();
    assert_eq!(child.status.code(), None, "it was ended by a signal");
    let text = String::from_utf8(child.stderr).unwrap();
    assert!(text.contains("memory allocation of"), "{text}");
}
