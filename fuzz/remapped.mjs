// remapped.mjs COUNT FOLDER: runs the files N-before.wasm and N-after.wasm of the folder, which
// `fuzz/run --shifted` writes, and compares what they do. It calls each export and each function of
// a table with small numbers, and hashes the memories. A program for WASI is started instead. The
// imports are stubs. A line names each module that does something else after, and the last one
// counts.
import { spawnSync } from "node:child_process";
import crypto from "node:crypto";
import fs from "node:fs";
import path from "node:path";

const OTHER = "another result";

// A value of an import: a function that returns 0, or what most compilers import.
function stub({ module, name, kind }, log) {
  switch (kind) {
    case "function":
      return (...args) => {
        log(`${module}.${name}(${args.map(String)})`);
        return 0;
      };
    case "memory":
      return new WebAssembly.Memory({ initial: 64 });
    case "table":
      return new WebAssembly.Table({ element: "anyfunc", initial: 256 });
    case "global": {
      const mutable = module.startsWith("GOT") || ["__stack_pointer", "__tls_base"].includes(name);
      return new WebAssembly.Global({ value: "i32", mutable }, mutable ? 65536 : 128);
    }
  }
}

// Calls a function with numbers, which are of 64 bits where that is needed.
function call(name, f, log) {
  for (let wide = 0; wide < 1 << Math.min(f.length, 6); wide++) {
    const args = Array.from({ length: f.length }, (_, at) => ((wide >> at) & 1 ? BigInt(at + 3) : at + 3));
    try {
      log(`${name}: ${f(...args)}`);
      return;
    } catch (error) {
      if (error instanceof TypeError && /BigInt/.test(error.message)) continue;
      log(`${name}: ${error.constructor.name}`);
      return;
    }
  }
  log(`${name}: not called`);
}

// Runs a module, and prints what it does.
async function runOne(file) {
  const module = new WebAssembly.Module(fs.readFileSync(file));
  const log = (line) => fs.writeSync(1, `${line}\n`);
  const imported = [];
  const imports = {};
  const wanted = WebAssembly.Module.imports(module);
  if (wanted.some((it) => it.module === "wasi_snapshot_preview1")) {
    const { WASI } = await import("node:wasi");
    const wasi = new WASI({ version: "preview1", args: ["program", "7"], returnOnExit: true });
    Object.assign(imports, wasi.getImportObject(), { fuzz: { added() {} } });
    log(`status ${wasi.start(new WebAssembly.Instance(module, imports))}`);
    return;
  }
  for (const it of wanted) {
    const value = stub(it, log);
    (imports[it.module] ??= {})[it.name] = value;
    imported.push([`import ${it.module}.${it.name}`, value]);
  }
  const { exports } = new WebAssembly.Instance(module, imports);
  const values = [...imported, ...Object.entries(exports)].filter(([name]) => name !== "import fuzz.added");
  for (const [name, value] of values) {
    if (typeof value === "function" && !name.startsWith("import ")) call(name, value, log);
    if (value instanceof WebAssembly.Table) {
      for (let at = 0; at < value.length; at++) {
        const element = value.get(at);
        if (typeof element === "function") call(`${name}[${at}]`, element, log);
      }
    }
  }
  for (const [name, value] of values) {
    if (value instanceof WebAssembly.Memory) {
      log(`${name}: ${crypto.createHash("sha256").update(new Uint8Array(value.buffer)).digest("hex")}`);
    } else if (value instanceof WebAssembly.Global) {
      log(`${name}: ${typeof value.value === "object" ? "a reference" : String(value.value)}`);
    }
  }
}

// What a module does in a process of its own.
function told(file) {
  const options = { encoding: "utf8", timeout: 20000, maxBuffer: 1 << 28 };
  const { status, stdout, stderr, error } = spawnSync(process.execPath, ["--no-warnings", import.meta.filename, file], options);
  const why = /^\w*Error: .*$/m.exec(stderr)?.[0];
  return { ran: status === 0 && !error, stdout, why: why ?? String(error ?? status) };
}

if (process.argv.length === 3) {
  await runOne(process.argv[2]);
} else {
  const [count, folder] = process.argv.slice(2);
  let [ran, calls, failed] = [0, 0, 0];
  const not = {};
  for (let number = 0; number < Number(count); number++) {
    const [before, after] = ["before", "after"].map((it) => path.join(folder, `${number}-${it}.wasm`));
    if (!fs.existsSync(before)) continue;
    const first = told(before);
    if (!first.ran) {
      const why = first.why.replace(/@\+\d+|#\d+|"[^"]*"|\d+/g, "..").slice(0, 90);
      not[why] = (not[why] ?? 0) + 1;
      continue;
    }
    const second = told(after);
    ran += 1;
    calls += first.stdout.split("\n").length - 1;
    if (!second.ran || second.stdout !== first.stdout) {
      failed += 1;
      console.log(`${number}: ${OTHER} ${second.ran ? "" : second.why}`);
    }
  }
  for (const [why, times] of Object.entries(not)) console.log(`not run: ${times} modules, ${why}`);
  console.log(`${ran} modules run before and after, ${calls} lines: ${failed} failed`);
  process.exitCode = failed ? 1 : 0;
}
