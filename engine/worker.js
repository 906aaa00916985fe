// ---- the engine on a thread of its own: each call comes as a message and is answered by one ---------------------------

const worker = {module: null, disk: null, session: null};

const acts = {
  // Takes the module's bytes.
  async load({bytes}) {
    worker.module = await WebAssembly.compile(bytes);
    return {canWait: engine.canWait};
  },
  // One call of the program on these files. Answers what it wrote.
  call({words, files, wanted = []}) {
    const disk = new engine.Memory(files), ran = engine.call(worker.module, words, {disk});
    return {...ran, files: taken(disk, wanted)};
  },
  // Opens a session, once the one before it has ended.
  async open({words, files, isReplayed}) {
    if (worker.session) await worker.session.close();
    worker.disk = new engine.Memory(files);
    worker.session = engine.session(worker.module, words, worker.disk, isReplayed);
    return worker.session.opened;
  },
  // Says lines, and answers each; and the files of these names that it wrote meanwhile.
  async say({lines, wanted = []}) {
    const answers = await worker.session.ask(lines);
    return {answers, files: taken(worker.disk, wanted), memory: worker.session.memory()};
  },
};

const taken = (disk, names) => Object.fromEntries(names.map(name => [name, disk.take(name)]));

async function serve({id, act, given}) {
  try {
    return {id, answer: await acts[act](given)};
  } catch (fault) {
    return {id, fault: String(fault && fault.message || fault)};
  }
}

if (typeof WorkerGlobalScope !== 'undefined') self.onmessage = async event => self.postMessage(await serve(event.data));
