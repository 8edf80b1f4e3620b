// recipes.mjs PACKAGE: assembles the recipes of a JSON list on standard input by the JavaScript
// package in this file. Prints a list of what the program `wasmrow` writes for them.
import fs from "node:fs";
import path from "node:path";
import url from "node:url";

const file = url.pathToFileURL(path.resolve(process.argv[2]));
const { assemble, DolzhytikError } = await import(file);

function answer(recipe) {
  try {
    return `${Buffer.from(assemble(recipe)).toString("hex")}\n`;
  } catch (error) {
    if (!(error instanceof DolzhytikError)) {
      throw error;
    }
    return `line ${error.line}: ${error.cause}\n`;
  }
}

const recipes = JSON.parse(fs.readFileSync(0, "utf8"));
fs.writeFileSync(1, JSON.stringify(recipes.map(answer)));
