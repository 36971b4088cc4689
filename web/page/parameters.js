// The parameters of the log, of which some are ticked to be plotted.
const MOST_PLOTS = 8;
const PARAMETER_COLUMNS = [
  { name: 'address', value: row => row.address }, { name: 'destination', value: row => row.destination }, { name: 'name', value: row => row.title }, { name: 'unit', value: row => row.unit },
  { name: 'values', value: row => row.count, kind: 'n' }, { name: 'errors', value: row => row.errors, kind: 'n' }, { name: 'absent', value: row => row.absent, kind: 'n' }, { name: 'least', value: row => row.least, kind: 'n' }, { name: 'most', value: row => row.most, kind: 'n' },
  { name: 'first', value: row => row.first, kind: 'n' }, { name: 'last', value: row => row.last, text: row => row.state ? `${row.last} ${row.state}` : row.last, kind: 'n' }, { name: 'SPN', value: row => row.spn, kind: 'n' },
  { name: 'group', value: row => row.group }, { name: 'PGN', value: row => row.pgn, kind: 'n' }, { name: 'NAME', value: row => row.name, kind: 'code' },
];

let parameters = null; // the table
let chosen = []; // the places of the rows that are plotted

const isDrawn = row => row.isPlotted && row.count > 1;
const nameOf = row => row.title || `SPN ${row.spn}`;
const senderOf = ({ address, destination }) => destination ? `${address}>${destination}` : address;
const titleOf = row => `${nameOf(row)} of ${senderOf(row)}${row.unit ? ', ' + row.unit : ''}`;

function showParameters(rows) {
  forgetCurves();
  chosen = [];
  parameters.show(rows);
  choose(rows.find(row => row.spn === '190' && isDrawn(row)) || rows.find(isDrawn));
}

function plotToolsOf(row) {
  const tools = document.createDocumentFragment();
  tools.append(tickOf(row), curveOf(row));
  return tools;
}

function tickOf(row) {
  const tick = element('input');
  tick.type = 'checkbox';
  tick.setAttribute('aria-label', `Plot ${titleOf(row)}`);
  tick.onchange = () => choose(row);
  return tick;
}

function markLine(line) {
  const tick = line.querySelector('input');
  tick.checked = chosen.includes(line.row.i);
  tick.disabled = !line.row.isPlotted || !tick.checked && chosen.length >= MOST_PLOTS;
  line.classList.toggle('chosen', tick.checked);
  line.classList.toggle('errs', line.row.errors > 0);
}

// Ticks a row, or unticks it.
function choose(row) {
  if (row) chosen = chosen.includes(row.i) ? chosen.filter(i => i !== row.i) : [...chosen, row.i].slice(0, MOST_PLOTS);
  parameters.refresh();
  $('ticks').textContent = chosen.length < MOST_PLOTS ? `Tick up to ${MOST_PLOTS} to plot them.` : `${MOST_PLOTS} are plotted: untick one to plot another.`;
  $('to-plot').hidden = !chosen.length;
  makePanels();
}
