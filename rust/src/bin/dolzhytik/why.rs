//! Why a function is in a module, and what is in it for this function alone.
use crate::context::Space;
use crate::dump::Function as Selected;
use crate::failure::{Failure, SeveralFunctions};
use crate::files::Input;
use crate::groups::Total;
use crate::name::Entry;
use crate::reach::{Graph, Reached, Reference};
use crate::sections::sections_of;
use crate::sizes::{Function, line};
use std::cmp::Reverse;
use std::fmt::{self, Display};

/// How many indices an error lists.
const MOST: usize = 10;

/// A function on a path.
pub struct Step<'a> {
    pub entry: Entry<'a>,
    /// The size of its body with its size prefix. An import has none.
    pub size: Option<usize>,
    /// What refers to it: the step before, or else something outside of bodies.
    pub reference: Reference<'a>,
}

/// `function 3 <name>: call at offset 0x4a`.
impl Display for Step<'_> {
    fn fmt(&self, f: &mut fmt::Formatter<'_>) -> fmt::Result {
        write!(f, "function {}: {}", self.entry, self.reference)
    }
}

/// Why a function is reachable.
pub struct Path<'a> {
    /// The functions of a shortest path. The last one is the function itself.
    pub steps: Vec<Step<'a>>,
    /// The functions that are reachable only through it.
    pub dominated: Total,
    /// The largest ones of these, the largest first.
    pub listed: Vec<Function<'a>>,
    /// Those that are not listed.
    pub others: Total,
}

/// Why a function is in a module.
pub struct Reason<'a> {
    /// The size of the module in bytes.
    pub module: usize,
    pub entry: Entry<'a>,
    /// The size of its body with its size prefix. An import has none.
    pub size: Option<usize>,
    /// Why it is reachable, or `None` if nothing reaches it.
    pub path: Option<Path<'a>>,
}

impl<'a> Reason<'a> {
    /// Returns why the selected function is in the module, and lists this number of functions.
    pub fn of(
        input: &'a Input,
        module: &'a [u8],
        selected: &Selected,
        most: usize,
    ) -> Result<Self, Failure> {
        let graph = Graph::of(input, sections_of(input, module)?)?;
        let index = find(&graph, input, selected)?;
        let reached = graph.reach(None)?;
        let path = match reached.path(index) {
            None => None,
            Some(path) => Some(Path {
                steps: path.into_iter().map(|it| step(&graph, it)).collect(),
                ..dominated(&graph, &reached, index, most)?
            }),
        };
        Ok(Reason {
            module: module.len(),
            entry: graph.context().entry(Space::Function, index),
            size: graph.function(index).map(|it| it.size),
            path,
        })
    }
}

/// Returns the index of the selected function.
fn find(graph: &Graph<'_>, input: &Input, selected: &Selected) -> Result<u32, Failure> {
    let mut indices = selected.indices(graph.context());
    indices.retain(|index| (*index as usize) < graph.count());
    indices.sort_unstable();
    match (indices.len(), indices.first()) {
        (1, Some(index)) => Ok(*index),
        (count, Some(_)) => Err(Failure::SeveralFunctions(SeveralFunctions {
            input: input.clone(),
            function: selected.clone(),
            count,
            indices: indices.into_iter().take(MOST).collect(),
        })),
        (_, None) => Err(selected.missing(input, graph.context(), graph.count())),
    }
}

fn step<'a>(graph: &Graph<'a>, (index, reference): (u32, Reference<'a>)) -> Step<'a> {
    Step {
        entry: graph.context().entry(Space::Function, index),
        size: graph.function(index).map(|it| it.size),
        reference,
    }
}

/// Returns the functions that are reachable only through one, and lists this number of them.
fn dominated<'a>(
    graph: &Graph<'a>,
    reached: &Reached<'a>,
    index: u32,
    most: usize,
) -> Result<Path<'a>, Failure> {
    let without = graph.reach(Some(index))?;
    let is_dominated = |it: &&Function<'a>| {
        it.index != index && reached.by(it.index).is_some() && without.by(it.index).is_none()
    };
    let mut listed: Vec<_> = graph
        .functions()
        .iter()
        .filter(is_dominated)
        .copied()
        .collect();
    listed.sort_by_key(|function| Reverse(function.size));
    let dominated = total(&listed);
    let others = listed.split_off(most.min(listed.len()));
    Ok(Path {
        steps: Vec::new(),
        dominated,
        listed,
        others: total(&others),
    })
}

fn total(functions: &[Function<'_>]) -> Total {
    let mut total = Total::default();
    functions.iter().for_each(|it| total.add(it.size));
    total
}

/// A table with a line for each function.
impl Display for Reason<'_> {
    fn fmt(&self, f: &mut fmt::Formatter<'_>) -> fmt::Result {
        f.write_str("     bytes     %  name\n")?;
        let Some(path) = &self.path else {
            let of = format_args!("function {}: nothing reaches it", self.entry);
            return line(f, self.size, self.module, of);
        };
        for step in &path.steps {
            line(f, step.size, self.module, step)?;
        }
        self.lines_of_dominated(f, path)
    }
}

impl Reason<'_> {
    fn lines_of_dominated(&self, f: &mut fmt::Formatter<'_>, path: &Path<'_>) -> fmt::Result {
        let Total { functions, bytes } = path.dominated;
        let of = format_args!("only through function {} ({functions})", self.entry.index);
        line(f, Some(bytes), self.module, of)?;
        for function in &path.listed {
            line(f, Some(function.size), self.module, function)?;
        }
        let Total { functions, bytes } = path.others;
        if functions == 0 {
            return Ok(());
        }
        let of = format_args!("other functions ({functions})");
        line(f, Some(bytes), self.module, of)
    }
}
