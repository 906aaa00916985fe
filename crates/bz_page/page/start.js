// ---- live: files that come and go, and the opening --------------------------------------------------------------------

const stem = () => live.name.replace(/\.[^.]*$/, '') || 'net';

// Has the session write its trace, itself or a page, and saves that.
async function saveWritten(what, name) {
  const file = WRITTEN[what], {answers, files} = await sayPlainly([`${what}! ${file}`], [file]);
  if (/^error: /.test(answers[0].output)) return say(answers[0].output);
  save(name, files[file], what === 'page' ? 'text/html' : 'text/plain');
  return say(answers[0].output.replace(file, name));
}

// The text of a page that stands in it: so that it ends no element, and no letter is but one byte.
const escapeOf = letter => `%${letter.charCodeAt(0).toString(16).toUpperCase().padStart(2, '0')}`;
const escaped = text => text.replace(/[^\n -~]|[<%]/g, escapeOf);

// This page itself, with the netlist and the session. (Names of files may have letters of more than a byte.)
async function saveWhole() {
  const {name, netlist, part} = live, {files} = await sayPlainly([`session! ${WRITTEN.session}`], [WRITTEN.session]);
  const sources = [...live.sources].map(([file, lines]) => [encodeURIComponent(file), lines]);
  const carried = {name: encodeURIComponent(name), netlist: lettersOf(netlist), part, session: files[WRITTEN.session], sources};
  const [head, tail] = source.split(blockStart('carried'));
  const text = `${head}${blockStart('carried')}${escaped(JSON.stringify(carried))}${tail.slice(tail.indexOf(BLOCK_END))}`;
  save(`${stem()}.live.html`, `<!doctype html>\n${text}`, 'text/html');
}

const SAVED = {
  whole: saveWhole,
  trace: () => saveWritten('trace', `${stem()}.trace`),
  session: () => saveWritten('session', `${stem()}.session`),
  page: () => saveWritten('page', `${stem()}.html`),
  netlist: () => save(live.name, live.netlist),
};

// The program reads so many bytes of a file at most.
const MOST_BYTES = 67108864;

// Takes files, one after another: netlists before what is played on them.
async function takeFiles(files) {
  const readOf = async file => ({name: file.name, bytes: new Uint8Array(await file.arrayBuffer())}), given = [...files];
  for (const {name, size} of given)
    if (size > MOST_BYTES) refuseFile(name, `has ${size} bytes, and at most ${MOST_BYTES} are read. Nothing is changed.`);
  const read = await Promise.all(given.filter(({size}) => size <= MOST_BYTES).map(readOf));
  const isNetlist = ({bytes}) => lettersOf(bytes).includes('(breeze-part');
  for (const {name, bytes} of [...read.filter(isNetlist), ...read.filter(it => !isNetlist(it))]) await take(name, bytes);
}

// How many moves `run N` and `random N` are to make.
const some = () => Math.max(1, Math.trunc(Number($('some').value)) || 1);

const BUTTONS = {
  undo, redo, run: () => make('run'), 'run-some': () => make(`run ${some()}`), random: () => make(`random ${some()}`), stop,
  anew: () => live.isOpen && busily(() => openPart(live.name, live.netlist, live.part)),
  leave: () => { document.body.classList.remove('living'); $('return').hidden = !live.isOpen; },
  return: () => document.body.classList.add('living'),
  'open-paste': () => take('pasted.breeze', new TextEncoder().encode($('paste').value)),
};

function listenLive() {
  for (const [id, act] of Object.entries(BUTTONS)) $(id).onclick = () => {
    act();
    $(id).blur();
  };
  $('saving').onchange = () => {
    const act = SAVED[$('saving').value];
    $('saving').value = '';
    if (live.isOpen && act) busily(async () => act());
  };
  $('parts').onchange = () => busily(() => openPart(live.name, live.netlist, $('parts').value));
  $('command').onkeydown = typedCommand;
  for (const id of ['paste', 'some', 'parts', 'saving']) $(id).addEventListener('keydown', event => event.stopPropagation());
  for (const id of ['file', 'more-files']) $(id).onchange = event => {
    takeFiles(event.target.files);
    event.target.value = '';
  };
  document.addEventListener('dragover', event => event.preventDefault());
  document.addEventListener('drop', event => {
    event.preventDefault();
    takeFiles(event.dataTransfer.files);
  });
  Object.assign(KEYS, {u: undo, U: redo, m: BUTTONS.run, M: BUTTONS['run-some'], p: BUTTONS.random, i: () => $('command').focus(),
    b: () => !isNow() && goOnFrom(view.line), e: () => document.querySelector('[data-given]')?.focus()});
  for (let i = 1; i <= 9; i++) KEYS[i] = () => document.querySelectorAll('#moves [data-can]')[i - 1]?.click();
}

// A command that is typed. Up and down bring back those before.
const typedBefore = {lines: [], at: 0};
function typedCommand(event) {
  event.stopPropagation();
  const {lines} = typedBefore, line = $('command').value.trim();
  if (event.key === 'Escape') $('command').blur();
  if (event.key === 'ArrowUp' || event.key === 'ArrowDown') {
    typedBefore.at = Math.max(0, Math.min(lines.length, typedBefore.at + (event.key === 'ArrowUp' ? -1 : 1)));
    $('command').value = lines[typedBefore.at] || '';
  }
  if (event.key !== 'Enter' || !line || live.isBusy) return;
  make(line);
  lines.push(line);
  typedBefore.at = lines.length;
  $('command').value = '';
}

// The examples that the page carries, as cards.
function showExamples() {
  $('examples').replaceChildren(...JSON.parse(textOf('netlists') || '[]').map(({name, says, netlist}) => {
    const card = html('button', 'example');
    card.append(html('b', '', name), html('span', '', says));
    card.onclick = () => take(`${name}.breeze`, bytesOfLetters(netlist));
    return card;
  }));
}

// What the page is: the program's own words of its version, and how it was made.
async function showMade() {
  const {kind, sources} = JSON.parse(textOf('made')), {output} = await call(['--version'], new Uint8Array(0));
  const [version, logic] = output.trim().split('\n');
  const isProved = kind === 'proved', unproved = 'It was not proved where it was made, and has checks in place of proofs';
  const how = isProved ? `Its sources are proved (${logic})` : unproved;
  const compiled = 'It was compiled to WebAssembly; that step is tested, and not proved.';
  $('version').textContent = `It is ${version}, made of the sources ${sources}. ${how}. ${compiled}`;
}

// The page as it came.
const source = document.documentElement.outerHTML;

// Opens what the page carries: a netlist, and what was played on it.
async function openCarried() {
  const {name, netlist, part, session, sources} = JSON.parse(textOf('carried'));
  const isOpened = await busily(() => openNetlist(decodeURIComponent(name), bytesOfLetters(netlist), part));
  for (const [file, lines] of sources) live.sources.set(decodeURIComponent(file), lines);
  if (isOpened) await busily(() => playSession(decodeURIComponent(name), session));
}

async function openLive() {
  const began = performance.now();
  Object.assign(added, {isLive: true, afterShow: showNext, takesClick: takeSign, endsInFocus: endsThatMove});
  live.how = {isReplayed: window.location.hash === '#replayed' || undefined, isAlone: window.location.hash === '#alone'};
  load('', '', 'trace 2\n');
  document.title = 'breezesim';
  play(false);
  measure();
  draw();
  fit();
  listen();
  listenLive();
  showExamples();
  try {
    live.how = {...live.how, canWait: (await startEngine()).canWait};
    await showMade();
  } catch (fault) {
    $('failure').hidden = false;
    $('failure').textContent = `The engine does not start in this browser (${fault.message || fault}). It needs Chromium 80, `
      + 'Firefox 113 or Safari 16.4, or a later one.';
    return;
  }
  live.times.ready = performance.now() - began;
  document.body.classList.add('ready');
  if (textOf('carried')) await openCarried();
  live.times.open = performance.now() - began;
}
