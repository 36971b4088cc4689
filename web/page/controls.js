// What each control does, and the begin of it all.
function readDropped({ items, files: dropped }) {
  const folder = [...items].map(item => item.webkitGetAsEntry?.()).find(entry => entry?.isDirectory);
  if (folder) say(`${folder.name} is a folder: drop the logs that are in it.`, true);
  else read(dropped);
}

function wireLog() {
  $('file').onchange = event => {
    read([...event.target.files]);
    event.target.value = '';
  };
  $('sample').onclick = readSample;
  $('bus').onchange = event => read(files, event.target.value.trim());
  const readBy = chosenTable => {
    table = chosenTable;
    $('no-table').hidden = !table;
    read(files, bus);
  };
  $('table').onchange = () => readBy($('table').files[0]);
  for (const [id, chosenTable] of [['no-table', undefined], ['trucks-table', new File([$('trucks').textContent], 'trucks')]]) $(id).onclick = () => {
    $('table').value = '';
    $('table').focus();
    readBy(chosenTable);
  };
  readBy(undefined);
  for (const kind of ['dragover', 'dragleave', 'drop']) document.addEventListener(kind, event => {
    event.preventDefault();
    $('drop').classList.toggle('over', kind === 'dragover');
    if (kind === 'drop') readDropped(event.dataTransfer);
  });
}

function wirePlot() {
  const acts = { back: goBack, forth: goForth, whole: showWhole, nearer, farther, earlier: () => move(-0.25), later: () => move(0.25) };
  for (const [id, act] of Object.entries(acts)) $(id).onclick = act;
  for (const id of ['together', 'scaled']) $(id).onchange = makePanels;
  for (const id of ['zone-utc', 'zone-local']) $(id).onchange = () => {
    faults.draw();
    drawGlance();
    look();
  };
  $('plots').onkeydown = hearKey;
  document.addEventListener('keydown', event => {
    if (event.key === 'Escape' && event.target.type !== 'search') showWhole();
  });
  matchMedia('(prefers-color-scheme: dark)').onchange = makePanels;
}

function wireSaving() {
  $('save-report').onclick = () => worker.postMessage({ report: true });
  $('save-table').onclick = saveTable;
  $('save-faults').onclick = () => save(log.faults, `${stem()}.faults.txt`);
  $('save-values').onclick = askValues;
  $('save-svg').onclick = saveSvg;
  $('save-png').onclick = savePng;
  $('print').onclick = () => window.print();
}

function wireNotices() {
  for (const what of ['licence', 'notices']) $(`show-${what}`).onclick = () => {
    $(what).textContent = $(`${what}-text`).textContent;
    $(what).hidden = !$(what).hidden;
    $(`show-${what}`).setAttribute('aria-expanded', String(!$(what).hidden));
  };
}

function start() {
  functionNames = namesOf('function-names');
  addressNames = namesOf('address-names');
  makerNames = namesOf('maker-names');
  parameters = new Table('parameters', PARAMETER_COLUMNS, { before: { name: 'plot', make: plotToolsOf }, mark: markLine });
  faults = new Table('faults', FAULT_COLUMNS);
  wireLog();
  wirePlot();
  wireSaving();
  wireNotices();
  if (canRead()) startWorker();
}
