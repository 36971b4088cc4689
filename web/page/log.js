// Reading a log: a worker of its own reads each, and what an older one says is heard no more.
const INDUSTRIES = ['all industries', 'on-highway', 'agriculture and forestry', 'construction', 'marine', 'industrial'];
const BROWSERS = 'Chrome, Edge and Chromium have it from version 133 on, and Firefox from 134 on.';
// The smallest module that has a memory with addresses of 64 bits.
const MEMORY64 = new Uint8Array([0, 97, 115, 109, 1, 0, 0, 0, 5, 3, 1, 4, 1]);

let workerPlace = '', worker = null, isFresh = false, files = [], bus = '', table, log = null;

const bytesOf = id => Uint8Array.from(atob($(id).textContent), letter => letter.charCodeAt(0));
const megabytes = size => `${(size / 1e6).toFixed(1)} MB`;

function canRead() {
  if (typeof WebAssembly === 'object' && WebAssembly.validate(MEMORY64)) return true;
  say(`This browser can't read logs here: it lacks WebAssembly with 64-bit memory. ${BROWSERS}`, true);
  $('file').disabled = $('sample').disabled = true;
  return false;
}

// Ends the worker that there is, whatever it does, and starts another.
function startWorker() {
  if (worker) worker.terminate();
  workerPlace = workerPlace || URL.createObjectURL(new Blob([$('worker').textContent], { type: 'text/javascript' }));
  const it = new Worker(workerPlace);
  it.onmessage = ({ data }) => {
    if (it === worker) hear(data);
  };
  it.onerror = fault => {
    if (it === worker) fail(fault.message);
  };
  worker = it;
  const module = bytesOf('module');
  worker.postMessage({ module }, [module.buffer]);
  isFresh = true;
}

// What a log is called: as its file, and how many more there are.
const logName = () => files.length > 1 ? `${files[0].name} and ${files.length - 1} more` : files[0].name;

// Reads a log of some files, on the interface of its first frame or on one that was chosen.
function read(chosenFiles, chosenBus = '') {
  if (!chosenFiles.length || $('file').disabled) return;
  [files, bus, log] = [[...chosenFiles], chosenBus, null];
  $('result').hidden = $('welcome').hidden = true;
  document.body.classList.add('read');
  $('progress').hidden = true;
  delete document.body.dataset.done;
  forgetPlots();
  if (!isFresh) startWorker();
  const size = files.reduce((sum, file) => sum + file.size, 0);
  if (size === 0) return say(`${logName()} is empty.`, true);
  say(`Reading ${logName()} (${megabytes(size)})`);
  isFresh = false;
  worker.postMessage({ files, bus, table });
}

async function readSample() {
  const stream = new Blob([bytesOf('sample-log')]).stream().pipeThrough(new DecompressionStream('gzip'));
  read([new File([await new Response(stream).blob()], 'sample.log')]);
}

function fail(words) {
  $('progress').hidden = true;
  [isAsked, isStale] = [false, false];
  say(`${files.length ? logName() : 'The page'}: it failed: ${words}.`, true);
}

function hear(data) {
  if (data.ready) document.body.dataset.ready = data.ready;
  else if (data.progress) showProgress(data.progress);
  else if (data.fault) fail(data.fault);
  else if (data.log) showLog(data.log, data.rows);
  else if (data.faults) showFaults(data.faults);
  else if (data.nodes) showNodes(data.nodes);
  else if (data.survey !== undefined) finish(data.survey);
  else if (data.view) showView(data.view, data.ticket);
  else if (data.columns) showCurve(data.curve, data.columns);
  else if (data.values) saveValues(data.values);
  else if (data.report) saveReport(data.report);
}

function showProgress({ done, all }) {
  const bar = $('progress');
  bar.hidden = false;
  if (all) {
    bar.max = all;
    bar.value = done;
  } else {
    bar.removeAttribute('value');
    say(`${log ? 'Making the report of' : 'Reading the values of'} ${logName()}`);
  }
}

// While the log is read the bar stays.
function sayRead() {
  $('progress').hidden = Boolean(document.body.dataset.done);
  say(`${log.name}: ${count(log.counts.values, 'value')} of ${count(parameters.rows.length, 'parameter')}`);
}

function showLog(it, rows) {
  log = { ...it, name: logName() };
  $('survey').textContent = '';
  for (const part of ['faults-section', 'nodes-box', 'nobody', 'buses']) $(part).hidden = true;
  showParameters(rows);
  glance = { rows, codes: null, nodes: [] };
  drawGlance();
  worker.postMessage({ rest: true }); // behind what the first plot asks for
  sayRead();
  showFacts();
  showHint(log.counts);
  $('result').hidden = false;
}

function showFacts(besides = {}) {
  const { frames, other, unread, messages, values } = log.counts;
  const facts = { log: log.name, size: megabytes(log.size), frames: number(frames), 'other lines': number(other), 'unread lines': number(unread),
    messages: number(messages), values: number(values), table: log.table || 'built-in', ...log.kind && { 'turned from': `${log.kind}, which isn't proved` }, ...besides };
  $('facts').replaceChildren(...Object.entries(facts).map(([name, value]) => {
    const pair = element('div');
    pair.append(element('dt', name), element('dd', value));
    return pair;
  }));
}

// What the file is, open where it has no frame of the interface; it comes last.
function finish(survey) {
  $('survey').textContent = survey;
  $('survey-box').open = !log.counts.frames;
  showBuses(busesOf(survey), /^elsewhere /m.test(survey));
  document.body.dataset.done = JSON.stringify(log.counts);
  sayRead();
}

// A line of an interface is `interface NAME frames N from (STAMP) to (STAMP) back N`.
function busesOf(survey) {
  const lines = survey.split('\n').filter(line => line.startsWith('interface '));
  return lines.map(line => line.split(' ')).map(words => ({ name: words[1], frames: Number(words[3]), backs: Number(words[9]) }));
}

// The interfaces of the log to choose from, where it has several; one that the survey doesn't tell, of very many, is typed.
function showBuses(buses, isMore) {
  const shown = bus || buses[0]?.name, backs = buses.find(({ name }) => name === shown)?.backs;
  if (shown) showFacts({ interface: shown, ...backs && { 'stamps that go back': number(backs) } });
  $('buses').hidden = buses.length < 2;
  $('bus-label').hidden = !isMore;
  $('bus').value = bus;
  $('buses-list').replaceChildren(...buses.map(({ name, frames }) => {
    const it = button(`${name}, ${count(frames, 'frame')}`, () => read(files, name));
    it.setAttribute('aria-pressed', String(name === shown));
    return it;
  }));
}

function showHint({ frames, other, unread, values }) {
  const hints = [];
  if (!frames && unread) hints.push('None of its lines was read: this page reads what candump -l or -L writes, and ASC, BLF, TRC and SavvyCAN\'s CSV, also packed (gz).');
  if (!frames && other) hints.push('It has no frame of this interface.');
  if (frames && !values) hints.push('Its frames hold none of the parameters that are read.');
  $('hint').textContent = hints.join(' ');
  $('hint').hidden = !hints.length;
}

const dateOf = stamp => stamp ? clock(Number(stamp.slice(1, -1)) * 1000) : '';
const withName = (number, name) => [number, name].filter(word => word !== undefined).join(', ');
const NODE_COLUMNS = [
  ['address', node => `${parseInt(node.address, 16)} (${node.address})`], ['NAME', node => node.name || '-'.repeat(16), 'code'],
  ['last claim', node => dateOf(node.claimed)], ['last frame', node => dateOf(node.heard)],
  ['function', ({ fields }) => withName(fields.function, functionNames.get(fields.function))], ['manufacturer', ({ fields }) => withName(fields.manufacturer, makerNames.get(fields.manufacturer))],
  ['industry group', ({ fields }) => withName(fields.industry, INDUSTRIES[fields.industry])],
  ['vehicle system', ({ fields }) => fields.system, 'n'], ['function instance', ({ fields }) => fields.functionInstance, 'n'],
  ['ECU instance', ({ fields }) => fields.ecuInstance, 'n'], ['system instance', ({ fields }) => fields.systemInstance, 'n'],
  ['identity number', ({ fields }) => fields.identity, 'n'], ['may change address', ({ fields }) => ['no', 'yes'][fields.arbitrary]],
];

function showNodes(nodes) {
  headOf($('nodes'), NODE_COLUMNS.map(([name, , kind]) => element('th', name, kind === 'n' ? 'n' : '')));
  $('nodes').tBodies[0].replaceChildren(...nodes.map(node => rowOf(NODE_COLUMNS.map(([, value, kind]) => [value(node) ?? '', kind]))));
  $('nodes-box').hidden = !nodes.length;
  $('nobody').hidden = nodes.some(node => node.name);
  drawGlance({ nodes });
}
