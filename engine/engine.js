// ---- the engine: the program as a WebAssembly module, called with words, files and lines of standard input -----------
// One call of it is one call of the program: the same words, the same bytes, the same status. Here stands what the C
// library and the system give the native program. It needs a browser or Node, and nothing else.

const engine = (() => {
  // Errors and flags of the system, by their numbers in Linux.
  const ENOENT = 2, EIO = 5, EBADF = 9, EEXIST = 17, EINVAL = 22, ENAMETOOLONG = 36;
  const CREATE = 0o100, NEW = 0o200, EMPTY = 0o1000, APPEND = 0o2000;
  const REGULAR = 0o100644, PIPE = [0o010600, 0, 0];

  // The end of a call.
  class Exit extends Error {
    constructor(status) { super(`exit ${status}`); this.status = status; }
  }
  const fail = number => { throw Object.assign(new Error(`errno ${number}`), {errno: -number}); };

  const bytesOf = data => (typeof data === 'string' ? new TextEncoder().encode(data) : data);
  const textOf = data => new TextDecoder('utf-8', {ignoreBOM: true}).decode(data);

  // Moves as much of the data from a place on as has room. Answers how much that is.
  function move(data, at, to) {
    const piece = data.subarray(at, at + to.length);
    to.set(piece);
    return piece.length;
  }

  // Files in memory, by their names: a disk. A file's number is that of its name, from 1.
  class Memory {
    constructor(files = {}) {
      this.numbers = new Map();
      this.files = new Map(Object.entries(files).map(([name, data]) => [name, bytesOf(data).slice()]));
    }
    number(name) {
      if (!this.numbers.has(name)) this.numbers.set(name, this.numbers.size + 1);
      return this.numbers.get(name);
    }
    open(name, flags) {
      const isThere = this.files.has(name);
      if (!isThere && !(flags & CREATE)) fail(ENOENT);
      if (isThere && flags & NEW) fail(EEXIST);
      if (!isThere || flags & EMPTY) this.files.set(name, new Uint8Array(0));
      return new MemoryFile(this, name, Boolean(flags & APPEND));
    }
    stat(name) { return this.files.has(name) ? [REGULAR, this.number(name), 1] : fail(ENOENT); }
    link(from, to) {
      if (this.files.has(to)) fail(EEXIST);
      this.files.set(to, this.files.get(from) || fail(ENOENT));
    }
    unlink(name) { if (!this.files.delete(name)) fail(ENOENT); }
    rename(from, to) {
      this.files.set(to, this.files.get(from) || fail(ENOENT));
      this.files.delete(from);
    }
    real(name) { return this.files.has(name) ? name : fail(ENOENT); }
    take(name) {
      const data = this.files.get(name) || new Uint8Array(0);
      this.files.delete(name);
      return textOf(data);
    }
  }

  class MemoryFile {
    constructor(disk, name, isAppended) { Object.assign(this, {disk, name, isAppended, at: 0}); }
    get data() { return this.disk.files.get(this.name) || new Uint8Array(0); }
    set data(data) { this.disk.files.set(this.name, data); }
    read(to) {
      const size = move(this.data, this.at, to);
      this.at += size;
      return size;
    }
    write(from) {
      const at = this.isAppended ? this.data.length : this.at, end = at + from.length;
      if (end > this.data.length) this.grow(end);
      this.data.set(from, at);
      this.at = end;
      return from.length;
    }
    // (a file that grows keeps as much room again, so that not each write copies all of it)
    grow(length) {
      const {data} = this;
      if (length <= data.buffer.byteLength - data.byteOffset) this.data = new Uint8Array(data.buffer, data.byteOffset, length);
      else {
        this.data = new Uint8Array(new ArrayBuffer(Math.max(2 * length, 65536)), 0, length);
        this.data.set(data);
      }
    }
    seek(by, whence) { return this.at = by + [0, this.at, this.data.length][whence]; }
    truncate(length) {
      const data = new Uint8Array(length);
      move(this.data, 0, data);
      this.data = data;
    }
    stat() { return this.disk.stat(this.name); }
    sync() {}
    chmod() {}
    close() {}
  }

  // What is written to a stream, gathered.
  class Sink {
    constructor() { this.pieces = []; }
    write(from) { this.pieces.push(from.slice()); return from.length; }
    stat() { return PIPE; }
    close() {}
    bytes() {
      const pieces = this.pieces, whole = new Uint8Array(pieces.reduce((sum, piece) => sum + piece.length, 0));
      let at = 0;
      for (const piece of pieces) { whole.set(piece, at); at += piece.length; }
      this.pieces = [];
      return whole;
    }
    take() { return textOf(this.bytes()); }
  }

  // Bytes to be read once, each piece as `next` answers it; null is the end. An answer may be a promise.
  class Spring {
    constructor(next) { Object.assign(this, {next, rest: null}); }
    static of(data) {
      const pieces = [bytesOf(data)];
      return new Spring(() => pieces.pop() || null);
    }
    read(to) {
      if (this.rest) return this.give(this.rest, to);
      const piece = this.next();
      return piece instanceof Promise ? piece.then(it => this.give(it, to)) : this.give(piece, to);
    }
    give(piece, to) {
      if (!piece) return 0;
      const size = move(piece, 0, to), rest = piece.subarray(size);
      this.rest = rest.length ? rest : null;
      return size;
    }
    stat() { return PIPE; }
    close() {}
  }

  // What the module imports. `streams` are standard input, output and errors.
  class Host {
    constructor(words, disk, streams) {
      Object.assign(this, {words: ['breezesim', ...words].map(bytesOf), disk, files: new Map(streams.entries())});
    }
    // Makes an instance of the module on this host. Answers what it exports.
    start(module, imports = this.imports()) {
      const {exports} = new WebAssembly.Instance(module, {host: imports});
      this.memory = exports.memory;
      return exports;
    }
    at(pointer, size) { return new Uint8Array(this.memory.buffer, Number(pointer), Number(size)); }
    name(pointer, length) { return textOf(this.at(pointer, length).slice()); }
    file(fd, method) {
      const file = this.files.get(fd);
      if (!file) fail(EBADF);
      return method && !file[method] ? fail(EINVAL) : file;
    }
    put(file) {
      let fd = 3;
      while (this.files.has(fd)) fd++;
      this.files.set(fd, file);
      return fd;
    }
    close(fd) {
      this.file(fd).close();
      this.files.delete(fd);
      return 0;
    }
    change(fd, method, ...given) {
      this.file(fd, method)[method](...given);
      return 0;
    }
    // What is done to names of files, each of which comes as its place and its length.
    rename(method, ...names) {
      this.disk[method](...names.flatMap((it, at) => (at % 2 ? [] : [this.name(it, names[at + 1])])));
      return 0;
    }
    real(path, length, to, size) {
      const name = bytesOf(this.disk.real(this.name(path, length)));
      return name.length > size ? fail(ENAMETOOLONG) : move(name, 0, this.at(to, size));
    }
    stat(fd, path, length, isLink, to) {
      const found = length ? this.disk.stat(this.name(path, length), Boolean(isLink)) : this.file(fd).stat();
      new BigUint64Array(this.memory.buffer, Number(to), 3).set(found.map(BigInt));
      return 0;
    }
    word(number, to, size) {
      const word = this.words[Number(number)];
      if (!word) return -1;
      if (word.length > size) return -2;
      this.at(to, word.length).set(word);
      return word.length;
    }
    imports() {
      const short = {
        open: (path, length, flags) => this.put(this.disk.open(this.name(path, length), flags)),
        close: fd => this.close(fd),
        dup: fd => this.put(this.file(fd)),
        truncate: (fd, length) => this.change(fd, 'truncate', Number(length)),
        sync: fd => this.change(fd, 'sync'),
        chmod: (fd, mode) => this.change(fd, 'chmod', mode),
        link: (...names) => this.rename('link', ...names),
        rename: (...names) => this.rename('rename', ...names),
        unlink: (...names) => this.rename('unlink', ...names),
        stat: (fd, path, length, isLink, to) => this.stat(fd, path, length, isLink, to),
        tty: fd => Number(Boolean(this.file(fd).isTerminal)),
      };
      // (these answer 64 bits)
      const long = {
        read: (fd, to, size) => this.file(fd, 'read').read(this.at(to, size)),
        write: (fd, from, size) => this.file(fd, 'write').write(this.at(from, size)),
        seek: (fd, by, whence) => this.file(fd, 'seek').seek(Number(by), whence),
        word: (number, to, size) => this.word(number, to, size),
        real: (path, length, to, size) => this.real(path, length, to, size),
      };
      const all = {exit: status => { throw new Exit(status); }};
      for (const [name, act] of Object.entries(short)) all[name] = (...given) => trying(act, given);
      for (const [name, act] of Object.entries(long)) all[name] = (...given) => {
        const answer = trying(act, given);
        return answer instanceof Promise ? answer.then(BigInt) : BigInt(answer);
      };
      return all;
    }
  }

  // What an import answers: -errno where it fails.
  function trying(act, given) {
    try {
      return act(...given);
    } catch (fault) {
      if (typeof fault.errno !== 'number') throw fault;
      return fault.errno < 0 && fault.errno > -200 ? fault.errno : -EIO;
    }
  }

  // The status of a call that was ended.
  const statusOf = fault => {
    if (fault instanceof Exit) return fault.status;
    throw fault;
  };

  // Calls the program on a host, from its start to its end. Answers its status.
  function playOn(host, module) {
    const {main} = host.start(module);
    try {
      return main(0, 0n);
    } catch (fault) {
      return statusOf(fault);
    }
  }
  const play = (module, words, disk, streams) => playOn(new Host(words, disk, streams), module);

  // Calls the program on files in memory. Answers its status, its output and its errors.
  function call(module, words, {disk = new Memory(), input = ''} = {}) {
    const output = new Sink(), errors = new Sink();
    const status = play(module, words, disk, [Spring.of(input), output, errors]);
    return {status, output: output.take(), errors: errors.take()};
  }

  // ---- a session: a call that reads its lines one by one, and answers each, as `explore` does. `opened` is a promise of what
  // it writes before the first line; `ask` takes lines, each with whether it changes what later ones are answered; `close` ends
  // it. `memory` is how many bytes it has.

  // Where the browser can hold a call that waits (JSPI), it is one call.
  const FAILED = 256;
  const canWait = typeof WebAssembly.Suspending === 'function' && typeof WebAssembly.promising === 'function';

  class Held {
    constructor(module, words, disk) {
      Object.assign(this, {disk, output: new Sink(), errors: new Sink(), take: null, answer: null, status: null});
      const lines = new Spring(() => this.next()), host = new Host(words, disk, [lines, this.output, this.errors]);
      const imports = host.imports();
      imports.read = new WebAssembly.Suspending(imports.read);
      const exports = host.start(module, imports);
      this.memory = () => exports.memory.buffer.byteLength;
      this.opened = new Promise((resolve, reject) => { this.answer = {resolve, reject}; });
      WebAssembly.promising(exports.main)(0, 0n).catch(statusOf).then(status => this.end(status), fault => this.fail(fault));
    }
    // What the program wrote since it took its last line.
    tell() {
      this.answer.resolve({output: this.output.take(), errors: this.errors.take(), status: this.status});
    }
    end(status) {
      this.status = status;
      this.tell();
    }
    fail(fault) {
      this.status = FAILED;
      this.answer.reject(fault);
    }
    // It asks for a line, so it has answered the one before.
    next() {
      const line = new Promise(resolve => { this.take = resolve; });
      this.tell();
      return line;
    }
    // Gives it a line, or null, which is the end of its input. Answers what it writes then.
    give(piece) {
      const answer = new Promise((resolve, reject) => { this.answer = {resolve, reject}; });
      this.take(piece);
      return answer;
    }
    say(line) {
      if (this.status !== null) return Promise.resolve({output: '', errors: '', status: this.status});
      return this.give(bytesOf(`${line}\n`));
    }
    // (a call that is held keeps its memory until it has ended)
    async close() { if (this.status === null) await this.give(null).catch(() => null); }
    async ask(lines) {
      const answers = [];
      for (const {line} of lines) answers.push(await this.say(line));
      return answers;
    }
  }

  // Else each asking is a call of its own, which plays before it the lines that moved something.
  class Replayed {
    constructor(module, words, disk) {
      Object.assign(this, {module, words, disk, kept: [], status: null, size: 0});
      this.memory = () => this.size;
      this.opened = Promise.resolve().then(() => this.run([])[0]);
    }
    run(lines) {
      const all = [...this.kept, ...lines.map(it => it.line)], output = new Sink(), errors = new Sink(), answers = [];
      const mark = () => answers.push({output: output.take(), errors: errors.take(), status: null});
      const next = () => {
        mark();
        return answers.length > all.length ? null : bytesOf(`${all[answers.length - 1]}\n`);
      };
      const host = new Host(this.words, this.disk, [new Spring(next), output, errors]), status = playOn(host, this.module);
      this.size = host.memory.buffer.byteLength;
      if (answers.length <= all.length) {
        mark();
        this.status = answers[answers.length - 1].status = status;
      }
      return lines.length ? answers.slice(this.kept.length + 1) : answers;
    }
    async ask(lines) {
      if (this.status !== null) return lines.map(() => ({output: '', errors: '', status: this.status}));
      const answers = this.run(lines);
      for (const {line, isKept} of lines) if (isKept) this.kept.push(line);
      return answers;
    }
    async close() { this.status = this.status ?? 0; }
  }

  const session = (module, words, disk, isReplayed = !canWait) => new (isReplayed ? Replayed : Held)(module, words, disk);
  return {call, play, session, canWait, Memory, Sink, Spring, PIPE};
})();
