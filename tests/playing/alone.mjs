// alone.mjs ENGINE MODULE.wasm WORD..: for tests, one call of the module in a process of its own, on its streams and files, as
// `node breezesim.mjs WORD..` is.
import fs from 'node:fs';

const [folder, path, ...words] = process.argv.slice(2), {Descriptor, engineOf, filesIn} = await import(`${folder}/node.mjs`);
const engine = engineOf(fs.readFileSync(`${folder}/engine.js`, 'utf8')), module = new WebAssembly.Module(fs.readFileSync(path));
process.exitCode = engine.play(module, words, filesIn('.'), [0, 1, 2].map(fd => new Descriptor(fd)));
