//! A small compiler that is written for the Rust crate `wasm-encoder`. It reads a program and
//! writes its module.
//!
//! A program is a list of functions. All values are integers of 32 bits, and each form gives one.
use std::borrow::Cow;
use std::collections::{BTreeMap, HashMap};
use std::io::{self, Read, Write};
use wasm_encoder::{
    BlockType, CodeSection, ConstExpr, DataCountSection, DataSection, ElementSection, Elements,
    EntityType, ExportKind, ExportSection, Function, FunctionSection, GlobalSection, GlobalType,
    ImportSection, IndirectNameMap, Instruction, InstructionSink, MemArg, MemArgTarget,
    MemorySection, MemoryType, Module, NameMap, NameSection, ProducersField, ProducersSection,
    RefType, TableSection, TableType, TypeSection, ValType,
};

#[cfg(test)]
mod tests;

/// A form of a program.
enum Form<'a> {
    Word(&'a str),
    Number(i32),
    Text(&'a str),
    List(Vec<Form<'a>>),
}

/// Reads forms up to the end, or to the bracket that closes their list.
fn forms<'a>(rest: &mut &'a str) -> Vec<Form<'a>> {
    let mut read = Vec::new();
    loop {
        *rest = rest.trim_start();
        let Some(first) = rest.chars().next() else {
            return read;
        };
        match first {
            '(' | ')' => {
                *rest = &rest[1..];
                if first == ')' {
                    return read;
                }
                read.push(Form::List(forms(rest)));
            }
            '"' => {
                let (text, behind) = rest[1..].split_once('"').expect("a closed text");
                read.push(Form::Text(text));
                *rest = behind;
            }
            _ => {
                let ends = |c: char| c.is_whitespace() || c == '(' || c == ')';
                let (word, behind) = rest.split_at(rest.find(ends).unwrap_or(rest.len()));
                read.push(word.parse().map_or(Form::Word(word), Form::Number));
                *rest = behind;
            }
        }
    }
}

/// A function of a program.
struct Definition<'a> {
    name: &'a str,
    /// The parameters, and behind them the other variables.
    locals: Vec<&'a str>,
    parameters: usize,
    body: Vec<Form<'a>>,
}

impl<'a> Definition<'a> {
    /// `(fn name (parameter ...) form ...)`
    fn new(form: Form<'a>) -> Self {
        let Form::List(parts) = form else {
            panic!("a function is a list")
        };
        let mut parts = parts.into_iter();
        let (Some(Form::Word("fn")), Some(Form::Word(name)), Some(Form::List(parameters))) =
            (parts.next(), parts.next(), parts.next())
        else {
            panic!("a function begins with `fn`, its name and its parameters")
        };
        let mut locals: Vec<&str> = parameters.iter().map(word).collect();
        let body: Vec<Form> = parts.collect();
        variables(&body, &mut locals);
        Definition {
            name,
            locals,
            parameters: parameters.len(),
            body,
        }
    }
}

fn word<'a>(form: &Form<'a>) -> &'a str {
    match form {
        Form::Word(word) => word,
        _ => panic!("a word is missing"),
    }
}

/// Adds the names that `let` gives.
fn variables<'a>(body: &[Form<'a>], locals: &mut Vec<&'a str>) {
    for form in body {
        if let Form::List(items) = form {
            if let [Form::Word("let"), Form::Word(name), ..] = items[..]
                && !locals.contains(&name)
            {
                locals.push(name);
            }
            variables(items, locals);
        }
    }
}

/// Where texts begin in the memory.
const TEXTS: u32 = 16;

/// The functions of the host: their names, each of one parameter.
const HOST: [&str; 2] = ["print", "say"];

/// What all functions share.
struct Program<'a> {
    functions: HashMap<&'a str, u32>,
    /// The index of the type for each number of parameters.
    types: BTreeMap<usize, u32>,
    texts: Vec<u8>,
}

impl Program<'_> {
    fn type_of(&mut self, parameters: usize) -> u32 {
        let next = self.types.len() as u32;
        *self.types.entry(parameters).or_insert(next)
    }

    /// The address of a text, with a 0 behind it.
    fn address(&mut self, text: &str) -> u32 {
        let at = TEXTS + self.texts.len() as u32;
        self.texts.extend_from_slice(text.as_bytes());
        self.texts.push(0);
        at
    }
}

/// One function as it is written.
struct Body<'p, 'a> {
    program: &'p mut Program<'a>,
    locals: &'p [&'a str],
    code: Function,
}

const BYTE: MemArg = MemArg {
    offset: 0,
    align: 0,
    target: MemArgTarget::Memory(0),
    ordering: None,
};

fn operation(name: &str) -> Option<Instruction<'static>> {
    Some(match name {
        "+" => Instruction::I32Add,
        "-" => Instruction::I32Sub,
        "*" => Instruction::I32Mul,
        "&" => Instruction::I32And,
        "<" => Instruction::I32LtS,
        "<=" => Instruction::I32LeS,
        ">=" => Instruction::I32GeS,
        _ => return None,
    })
}

impl<'a> Body<'_, 'a> {
    fn local(&self, name: &str) -> u32 {
        let place = self.locals.iter().position(|local| *local == name);
        place.unwrap_or_else(|| panic!("there is no variable {name}")) as u32
    }

    fn calls(&mut self) -> InstructionSink<'_> {
        self.code.instructions()
    }

    /// All forms, of which the last one's value is left.
    fn sequence(&mut self, body: &[Form<'a>]) {
        for (i, form) in body.iter().enumerate() {
            if i > 0 {
                self.calls().drop();
            }
            self.form(form);
        }
        if body.is_empty() {
            self.calls().i32_const(0);
        }
    }

    fn all(&mut self, forms: &[Form<'a>]) {
        for form in forms {
            self.form(form);
        }
    }

    fn form(&mut self, form: &Form<'a>) {
        match form {
            Form::Number(value) => {
                self.calls().i32_const(*value);
            }
            Form::Word(name) => {
                let index = self.local(name);
                self.calls().local_get(index);
            }
            Form::Text(text) => {
                let at = self.program.address(text);
                self.calls().i32_const(at as i32);
            }
            Form::List(items) => self.list(word(&items[0]), &items[1..]),
        }
    }

    fn list(&mut self, head: &str, rest: &[Form<'a>]) {
        match (head, rest) {
            ("let" | "set", [name, value]) => {
                self.form(value);
                let index = self.local(word(name));
                self.calls().local_tee(index);
            }
            ("do", body) => self.sequence(body),
            ("if", [test, yes, no]) => {
                self.form(test);
                self.calls().if_(BlockType::Result(ValType::I32));
                self.form(yes);
                self.calls().else_();
                self.form(no);
                self.calls().end();
            }
            ("while", [test, body @ ..]) => {
                self.calls().block(BlockType::Empty).loop_(BlockType::Empty);
                self.form(test);
                self.calls().i32_eqz().br_if(1);
                self.sequence(body);
                self.calls().drop().br(0).end().end().i32_const(0);
            }
            ("byte", [_]) => {
                self.all(rest);
                self.calls().i32_load8_u(BYTE);
            }
            ("put", [_, _]) => {
                self.all(rest);
                self.calls().i32_store8(BYTE).i32_const(0);
            }
            ("count", []) => {
                self.calls().global_get(0).i32_const(1).i32_add();
                self.calls().global_set(0).global_get(0);
            }
            _ => self.call(head, rest),
        }
    }

    /// An operation, or a call of a function by its name or by its place in the table.
    fn call(&mut self, head: &str, rest: &[Form<'a>]) {
        match (head, rest) {
            ("ref", [name]) => {
                let index = self.program.functions[word(name)] - HOST.len() as u32;
                self.calls().i32_const(index as i32);
            }
            ("apply", [function, arguments @ ..]) => {
                self.all(arguments);
                self.form(function);
                let ty = self.program.type_of(arguments.len());
                self.calls().call_indirect(0, ty);
            }
            _ => {
                self.all(rest);
                let call = || Instruction::Call(self.program.functions[head]);
                let instruction = operation(head).unwrap_or_else(call);
                self.code.instruction(&instruction);
            }
        }
    }
}

/// The module of a program, which exports its functions and its memory.
fn compile(source: &str) -> Vec<u8> {
    let definitions: Vec<Definition> = forms(&mut &*source)
        .into_iter()
        .map(Definition::new)
        .collect();
    let names = HOST.into_iter().chain(definitions.iter().map(|it| it.name));
    let mut program = Program {
        functions: names.zip(0..).collect(),
        types: BTreeMap::new(),
        texts: Vec::new(),
    };
    let of_host = program.type_of(1);

    let mut functions = FunctionSection::new();
    let mut exports = ExportSection::new();
    let mut code = CodeSection::new();
    for it in &definitions {
        functions.function(program.type_of(it.parameters));
        exports.export(it.name, ExportKind::Func, program.functions[it.name]);
        code.function(&function(&mut program, it));
    }
    exports.export("memory", ExportKind::Memory, 0);

    let mut imports = ImportSection::new();
    for name in HOST {
        imports.import("host", name, EntityType::Function(of_host));
    }
    let count = definitions.len() as u64;
    let mut module = Module::new();
    module
        .section(&types(&program))
        .section(&imports)
        .section(&functions)
        .section(&table(count))
        .section(&memory())
        .section(&counter())
        .section(&exports)
        .section(&elements(count as u32))
        .section(&DataCountSection { count: 1 })
        .section(&code)
        .section(&data(&program))
        .section(&debug_names(&program, &definitions))
        .section(&producers());
    module.finish()
}

fn function<'a>(program: &mut Program<'a>, it: &Definition<'a>) -> Function {
    let others = it.locals.len() - it.parameters;
    let mut body = Body {
        program,
        locals: &it.locals,
        code: Function::new_with_locals_types(vec![ValType::I32; others]),
    };
    body.sequence(&it.body);
    body.calls().end();
    body.code
}

fn types(program: &Program) -> TypeSection {
    let mut by_index: Vec<_> = program.types.iter().collect();
    by_index.sort_by_key(|(_, index)| **index);
    let mut types = TypeSection::new();
    for (parameters, _) in by_index {
        let parameters = vec![ValType::I32; *parameters];
        types.ty().function(parameters, [ValType::I32]);
    }
    types
}

fn table(minimum: u64) -> TableSection {
    let mut tables = TableSection::new();
    tables.table(TableType {
        element_type: RefType::FUNCREF,
        table64: false,
        minimum,
        maximum: Some(minimum),
        shared: false,
    });
    tables
}

fn memory() -> MemorySection {
    let mut memories = MemorySection::new();
    memories.memory(MemoryType {
        minimum: 1,
        maximum: None,
        memory64: false,
        shared: false,
        page_size_log2: None,
    });
    memories
}

fn counter() -> GlobalSection {
    let mut globals = GlobalSection::new();
    let ty = GlobalType {
        val_type: ValType::I32,
        mutable: true,
        shared: false,
    };
    globals.global(ty, &ConstExpr::i32_const(0));
    globals
}

fn elements(count: u32) -> ElementSection {
    let host = HOST.len() as u32;
    let functions: Vec<u32> = (host..host + count).collect();
    let mut elements = ElementSection::new();
    let functions = Elements::Functions(Cow::Owned(functions));
    elements.active(None, &ConstExpr::i32_const(0), functions);
    elements
}

fn data(program: &Program) -> DataSection {
    let mut data = DataSection::new();
    let at = ConstExpr::i32_const(TEXTS as i32);
    data.active(0, &at, program.texts.iter().copied());
    data
}

fn debug_names(program: &Program, definitions: &[Definition]) -> NameSection {
    let mut functions = NameMap::new();
    let mut locals = IndirectNameMap::new();
    for it in definitions {
        let index = program.functions[it.name];
        functions.append(index, it.name);
        let mut of_one = NameMap::new();
        for (place, name) in (0..).zip(&it.locals) {
            of_one.append(place, name);
        }
        locals.append(index, &of_one);
    }
    let mut names = NameSection::new();
    names.module("program");
    names.functions(&functions);
    names.locals(&locals);
    names
}

fn producers() -> ProducersSection {
    let mut field = ProducersField::new();
    field.value("back_end", "1");
    let mut producers = ProducersSection::new();
    producers.field("processed-by", &field);
    producers
}

fn main() -> io::Result<()> {
    let mut source = String::new();
    io::stdin().read_to_string(&mut source)?;
    io::stdout().write_all(&compile(&source))
}
