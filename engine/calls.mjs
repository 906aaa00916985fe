// calls.mjs MODULE.wasm: for tests, a call of the module for each line of standard input: {words, given, folder} as JSON, with
// words and input in base64, answered by a line {status, output, errors}. The module is compiled once.
import fs from 'node:fs';
import readline from 'node:readline';
import {engineOf, filesIn} from './node.mjs';

const engine = engineOf(fs.readFileSync(new URL('engine.js', import.meta.url), 'utf8'));
const module = new WebAssembly.Module(fs.readFileSync(process.argv[2]));
const bytesOf = text => new Uint8Array(Buffer.from(text, 'base64'));
const base64 = data => Buffer.from(data).toString('base64');
// (what no program does: a trap)
const TRAPPED = 256;

function call({words, given, folder}) {
  const output = new engine.Sink(), errors = new engine.Sink(), streams = [engine.Spring.of(bytesOf(given)), output, errors];
  let status = TRAPPED;
  try {
    status = engine.play(module, words.map(bytesOf), filesIn(folder), streams);
  } catch (fault) {
    errors.write(new TextEncoder().encode(String(fault.stack)));
  }
  return {status, output: base64(output.bytes()), errors: base64(errors.bytes())};
}

readline.createInterface({input: process.stdin}).on('line', line => {
  process.stdout.write(`${JSON.stringify(call(JSON.parse(line)))}\n`);
});
