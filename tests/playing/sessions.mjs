// sessions.mjs ENGINE MODULE.wasm: for tests, the engine's worker without a thread of its own: {act, given} as JSON on each line
// of standard input is answered by a line {answer} or {fault}. Files come in base64. A line {} asks how a session can be held,
// and whether the one before the last opening has ended.
import fs from 'node:fs';
import readline from 'node:readline';

const [folder, path] = process.argv.slice(2), read = name => fs.readFileSync(`${folder}/${name}`, 'utf8');
const {engine, acts, worker} = new Function(`${read('engine.js')}\n${read('worker.js')}\nreturn {engine, acts, worker};`)();
const bytesOf = ([name, text]) => [name, new Uint8Array(Buffer.from(text, 'base64'))];

let before = null;
async function answer({act, given}) {
  if (!act) return {answer: {canWait: engine.canWait, hasEnded: !before || before.status !== null}};
  if (act === 'open') before = worker.session;
  if (given.files) given.files = Object.fromEntries(Object.entries(given.files).map(bytesOf));
  try {
    return {answer: await acts[act](given)};
  } catch (fault) {
    return {fault: String(fault.stack)};
  }
}

await acts.load({bytes: fs.readFileSync(path)});
for await (const line of readline.createInterface({input: process.stdin}))
  process.stdout.write(`${JSON.stringify(await answer(JSON.parse(line)))}\n`);
