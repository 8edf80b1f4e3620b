// run.mjs MODULE..: runs the tests of each module, each test in an instance of its own. Prints the
// tests that fail, then `NAME: N passed, M failed, K bytes` for each module.
import fs from "node:fs";
import path from "node:path";

// An instance of a test program, and what it told last.
class Program {
  told = "";

  constructor(module) {
    const tell = (first, len) => {
      this.told = this.text(first, len);
    };
    const panics = (call, first, len) => {
      const text = this.text(first, len);
      this.told = "";
      const trapped = this.traps(() => this.calls.resume(call));
      const panicked = trapped && this.told.includes(text);
      this.told = "";
      return panicked;
    };
    this.calls = new WebAssembly.Instance(module, { host: { tell, panics } }).exports;
  }

  // An address past 2^31 comes as a negative number.
  text(first, len) {
    return new TextDecoder().decode(new Uint8Array(this.calls.memory.buffer, first >>> 0, len));
  }

  traps(call) {
    try {
      call();
      return false;
    } catch (error) {
      this.told ||= `${error}`;
      return true;
    }
  }
}

for (const file of process.argv.slice(2)) {
  const bytes = fs.readFileSync(file);
  const module = new WebAssembly.Module(bytes);
  const count = new Program(module).calls.count();
  let failed = 0;
  for (let test = 0; test < count; test++) {
    const program = new Program(module);
    program.calls.name(test);
    const name = program.told;
    program.told = "";
    if (program.traps(() => program.calls.run(test))) {
      failed += 1;
      console.log(`${name}: ${program.told}`);
    }
  }
  const name = path.basename(file, ".wasm");
  console.log(`${name}: ${count - failed} passed, ${failed} failed, ${bytes.length} bytes`);
}
