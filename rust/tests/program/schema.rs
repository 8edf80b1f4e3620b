//! Holds JSON against a schema. The validator is Debian's package python3-jsonschema. Where that is
//! missing, a test prints so, and passes.
use crate::program::Folder;
use crate::tools;
use std::path::Path;
use std::process::Command;

/// Prints each error of the files, and each kind of the schema that no file has.
const VALIDATE: &str = r#"
import json, sys
try:
    from jsonschema import Draft202012Validator
except ImportError:
    print('there is no jsonschema'); sys.exit()
schema = json.load(open(sys.argv[1]))
Draft202012Validator.check_schema(schema)
validator, lacking, seen = Draft202012Validator(schema), set(), set()
def walk(value, found, take):
    if isinstance(value, dict):
        take(value, found)
    for it in value.values() if isinstance(value, dict) else value if isinstance(value, list) else []:
        walk(it, found, take)
def of_schema(value, found):
    kind = value.get('properties', {}).get('kind', {})
    found.update([kind['const']] if 'const' in kind else kind.get('enum', []))
walk(schema, lacking, of_schema)
for path in sys.argv[2:]:
    value = json.load(open(path))
    for error in validator.iter_errors(value):
        print(path, list(error.absolute_path), json.dumps(error.instance)[:300])
    walk(value, seen, lambda value, found: found.add(value.get('kind')))
if len(sys.argv) > 3 and lacking - seen:
    print('no file has', sorted(lacking - seen))
"#;

/// Returns what the validator prints of these files of a schema, or `None` if it is missing.
pub fn validated(schema: &str, folder: &Folder, files: &[Vec<u8>]) -> Option<String> {
    let schemas = Path::new(env!("CARGO_MANIFEST_DIR")).join("schema");
    let mut python = Command::new("python3");
    python.args(["-c", VALIDATE]).arg(schemas.join(schema));
    for (i, file) in files.iter().enumerate() {
        folder.write(&i.to_string(), file);
        python.arg(folder.path(&i.to_string()));
    }
    let printed = tools::printed(&mut python)?;
    if printed == "there is no jsonschema\n" {
        eprint!("{printed}");
        return None;
    }
    Some(printed)
}
