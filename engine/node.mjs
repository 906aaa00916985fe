#!/usr/bin/env node
// breezesim for a machine with Node, on its files: `node breezesim.mjs ARGS` is `breezesim ARGS`. The program is in the live
// page of the same name, breezesim.html, which stands beside this file.
import fs from 'node:fs';
import path from 'node:path';
import tty from 'node:tty';
import zlib from 'node:zlib';
import {fileURLToPath} from 'node:url';

// Errors and flags of Linux in those of this machine.
const ERRORS = {EPERM: 1, ENOENT: 2, EIO: 5, ENXIO: 6, EBADF: 9, EAGAIN: 11, ENOMEM: 12, EACCES: 13, EEXIST: 17, ENOTDIR: 20,
  EISDIR: 21, EINVAL: 22, EMFILE: 24, EFBIG: 27, ENOSPC: 28, EROFS: 30, EPIPE: 32, ENAMETOOLONG: 36, ELOOP: 40};
const {O_RDONLY, O_WRONLY, O_RDWR, O_CREAT, O_EXCL, O_TRUNC, O_APPEND} = fs.constants;
const FLAGS = [[0o100, O_CREAT], [0o200, O_EXCL], [0o1000, O_TRUNC], [0o2000, O_APPEND]];
const flagsOf = flags => FLAGS.reduce((sum, [theirs, ours]) => (flags & theirs ? sum | ours : sum),
  [O_RDONLY, O_WRONLY, O_RDWR][flags & 3]);

// Calls the system until it doesn't say that it isn't ready. (Node's standard streams may not block.)
function calling(act) {
  for (;;) {
    try {
      return act();
    } catch (fault) {
      if (fault.code === 'EOF') return 0;  // (Windows, at the end of a pipe)
      if (fault.code !== 'EAGAIN') throw fault.code ? Object.assign(fault, {errno: -(ERRORS[fault.code] || ERRORS.EIO)}) : fault;
      Atomics.wait(new Int32Array(new SharedArrayBuffer(4)), 0, 0, 5);
    }
  }
}

// Of a file its mode, its number and its device.
const identityOf = ({mode, ino, dev}) => [mode, ino, dev];

// A descriptor of the system.
export class Descriptor {
  constructor(fd) { this.fd = fd; }
  get isTerminal() { return tty.isatty(this.fd); }
  read(to) { return calling(() => fs.readSync(this.fd, to, 0, to.length, null)); }
  write(from) { return calling(() => fs.writeSync(this.fd, from, 0, from.length)); }
  stat() { return calling(() => identityOf(fs.fstatSync(this.fd, {bigint: true}))); }
  truncate(length) { calling(() => fs.ftruncateSync(this.fd, length)); }
  sync() { calling(() => fs.fsyncSync(this.fd)); }
  chmod(mode) { calling(() => fs.fchmodSync(this.fd, mode)); }
  close() { if (this.fd > 2) calling(() => fs.closeSync(this.fd)); }
}

// The files of the system, as they are called in a folder.
export const filesIn = folder => {
  const at = name => path.resolve(folder, name);
  return {
    open: (name, flags) => new Descriptor(calling(() => fs.openSync(at(name), flagsOf(flags), 0o666))),
    stat: (name, isLink) => calling(() => identityOf((isLink ? fs.lstatSync : fs.statSync)(at(name), {bigint: true}))),
    link: (from, to) => calling(() => fs.linkSync(at(from), at(to))),
    rename: (from, to) => calling(() => fs.renameSync(at(from), at(to))),
    unlink: name => calling(() => fs.unlinkSync(at(name))),
    real: name => calling(() => fs.realpathSync(at(name))),
  };
};

// The engine of a script, engine.js.
export const engineOf = script => new Function(`${script}; return engine;`)();

// The engine and the module that a live page carries, and what it says of them: of which sources they are, and whether proved.
function carriedBy(page) {
  const block = id => {
    const [, rest] = page.split(`<script type="text/plain" id="${id}">`);
    if (rest === undefined) throw new Error('it carries no program');
    return rest.split('</script>')[0];
  };
  const textOf = id => block(id).replace(/%([0-9A-F]{2})/g, (_, digits) => String.fromCharCode(parseInt(digits, 16)));
  const module = zlib.gunzipSync(Buffer.from(block('engine'), 'base64'));
  return {engine: engineOf(textOf('worker')), module, made: JSON.parse(textOf('made'))};
}

// What `--version` tells beside the program's own words.
function versionOf({kind, sources}, page) {
  const how = kind === 'proved' ? 'its sources were proved where that was made' : 'it has checks in place of proofs';
  return `sources ${sources}\nrun by Node, from ${page}: ${how}\n`;
}

// Says why nothing was done: no status of the program's own is meant.
function fail(why) {
  process.stderr.write(`breezesim: ${why}\n`);
  process.exitCode = 3;
}

function main(here, words) {
  const page = here.replace(/\.mjs$/, '.html'), name = path.basename(page);
  if (!fs.existsSync(page)) return fail(`the program is in ${name}, which must stand beside ${path.basename(here)}`);
  try {
    run(page, words);
  } catch (fault) {
    fail(`the program in ${name} can't be run: ${fault.message}`);
  }
}

function run(page, words) {
  const {engine, module, made} = carriedBy(fs.readFileSync(page, 'latin1'));
  process.exitCode = engine.play(new WebAssembly.Module(module), words, filesIn('.'), [0, 1, 2].map(fd => new Descriptor(fd)));
  const isAsked = words.length === 1 && ['--version', '-V'].includes(words[0]);
  if (isAsked && process.exitCode === 0) process.stdout.write(versionOf(made, path.basename(page)));
}

const here = fileURLToPath(import.meta.url);
if (process.argv[1] && fs.realpathSync(process.argv[1]) === fs.realpathSync(here)) main(here, process.argv.slice(2));
