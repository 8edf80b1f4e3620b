// Calls the package for tools/web: each line of standard input is a request, each line of standard
// output its answer.
import { readFileSync, writeFileSync } from 'node:fs';
import { createInterface } from 'node:readline';
import { DolzhytikError, assemble, list, minimize, outline, strip } from './dolzhytik.js';

const CALLS = {
  outline: ({ input }) => outline(readFileSync(input)),
  list: ({ input }) => list(readFileSync(input)),
  minimize: ({ input, output, ...options }) => writeFileSync(output, minimize(readFileSync(input), options)),
  strip: ({ input, output, options }) => writeFileSync(output, strip(readFileSync(input), options)),
  assemble: ({ input, output }) => writeFileSync(output, assemble(readFileSync(input, 'utf8'))),
};

function answer(request) {
  try {
    return { result: CALLS[request.call](request) ?? null };
  } catch (error) {
    if (error instanceof DolzhytikError) {
      return { message: error.message };
    }
    throw error;
  }
}

for await (const line of createInterface({ input: process.stdin })) {
  console.log(JSON.stringify(answer(JSON.parse(line))));
}
