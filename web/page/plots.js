// The panels: each has a title, what is said of what it shows, and a graph by dygraphs.
const FEW_POINTS = 200; // so many readings have a point each
const KINDS = ['', 'error', 'indicator', 'reserved value', 'text'];
const STEPS = ['', '-', 'count', 'counts', 'steps', 'fields', 'r', 'state', 'gear', 'turn']; // the units of counts and codes
// They differ too for those who don't tell red from green; in one panel all but the first are dashed besides.
const LIGHT = ['#0060a8', '#b84300', '#00735a', '#9a3a78', '#333333', '#8a6100', '#5b52c0', '#a01830'];
const DARK = ['#62b6f0', '#f0a030', '#35cda3', '#e691c4', '#e8e8e8', '#f0e060', '#b0a8ff', '#ff8f80'];
const LONG_STATE = 24; // letters of a state's name at an axis
const DASHES = [null, [8, 3], [2, 3], [10, 3, 2, 3], [5, 5], [14, 4], [2, 6], [8, 3, 2, 3, 2, 3]];

let panels = [];
let labelWidth = 0; // of the values' axes: the same for all, so that times stand below one another
let isOurs = false; // that it is the page that draws, and not a hand

function forgetPlots() {
  for (const { graph } of panels) if (graph) graph.destroy();
  panels = [];
  chosen = [];
  $('plots').replaceChildren();
  $('bands').hidden = true;
  forgetViews();
}

const colourOf = i => (matchMedia('(prefers-color-scheme: dark)').matches ? DARK : LIGHT)[chosen.indexOf(i)];

// The rows of each panel: one, or all of a unit.
function groupsOf(shown) {
  if (!$('together').checked) return shown.map(i => [i]);
  const byUnit = Map.groupBy(shown, i => `${parameters.rows[i].unit} ${parameters.rows[i].isSwitch}`);
  return [...byUnit.values()];
}

function makePanels() {
  for (const { graph } of panels) if (graph) graph.destroy();
  panels = groupsOf(chosen).map(panelOf);
  $('plots').replaceChildren(...panels.map(({ at }) => at));
  labelWidth = 0;
  $('scaled').disabled = !$('together').checked;
  $('plot-status').textContent = chosen.length ? '' : 'No parameter is chosen.';
  if (!chosen.length) forgetViews();
  look();
}

function panelOf(group) {
  const at = element('div', undefined, 'panel');
  const series = group.map((i, place) => seriesOf(i, DASHES[place]));
  const box = element('div', undefined, 'graph-box'), graph = element('div', undefined, 'graph'), line = element('div', undefined, 'cursor');
  graph.tabIndex = 0;
  graph.setAttribute('role', 'img');
  graph.setAttribute('aria-describedby', 'plot-keys');
  line.hidden = true;
  box.append(graph, line);
  at.append(...series.map(({ heading }) => heading), box);
  return { at, graphAt: graph, line, series, graph: null, ticks: {} };
}

// A parameter in a panel, and what is said of it.
function seriesOf(i, dash) {
  const row = parameters.rows[i], colour = colourOf(i), heading = element('div', undefined, 'heading');
  const title = element('h3', titleOf(row)), value = element('output'), about = element('p', undefined, 'about');
  const key = shape('svg', { width: 36, height: 8 });
  key.append(shape('path', { d: 'M0 4h28', stroke: colour, 'stroke-width': 3, ...dash && { 'stroke-dasharray': dash.join(' ') } }));
  title.prepend(key);
  heading.append(title, value, about);
  return { i, row, heading, value, about, colour, dash, points: [], words: [] };
}

// ---- what is drawn ------------------------------------------------------------------------------

function drawPanels({ shown, from, to }) {
  for (const panel of panels) {
    for (const one of panel.series) {
      Object.assign(one, shown.find(({ i }) => i === one.i));
      one.scale = isScaled(panel.series) ? scaleOf(one.statistics) : y => y;
    }
    drawPanel(panel, from, to);
  }
  alignPanels();
  drawBands();
  $('plot-status').textContent = `${clock(from)} to ${clock(to)}`;
  document.body.dataset.plotted = ticket;
}

// Several in one panel may each have a scale of its own, from the least to the most of what is shown.
const isScaled = series => series.length > 1 && $('scaled').checked;

function scaleOf({ least, most }) {
  return y => most > least ? (y - least) / (most - least) : y - least + 0.5;
}

// The points of several series in the order of time, each with a place for each series.
function rowsOfPoints(series) {
  if (series.length === 1) return series[0].points;
  const empty = series.map(() => null);
  return series.flatMap(({ points, scale }, place) => points.map(([x, y]) => [x, ...empty.with(place, scale(y))])).sort((a, b) => a[0] - b[0]);
}

function drawPanel(panel, from, to) {
  const { series } = panel;
  const isFew = series.every(({ statistics: { count } }) => count < FEW_POINTS);
  const points = rowsOfPoints(series);
  const options = { file: points.length ? points : [[from, ...series.map(() => null)]], dateWindow: [from, to], drawPoints: isFew, labelsUTC: !isLocal() || to < NO_DATE };
  isOurs = true;
  if (panel.graph) panel.graph.updateOptions(options);
  else panel.graph = new Dygraph(panel.graphAt, options.file, { ...optionsOf(panel), ...options });
  isOurs = false;
  for (const one of series) sayAbout(one);
  const [least, most] = [Math.min(...series.map(it => it.statistics.least)), Math.max(...series.map(it => it.statistics.most))];
  panel.graphAt.setAttribute('aria-label', series.map(one => `${titleOf(one.row)}: ${one.about.textContent}`).join('. '));
  panel.graphAt.dataset.extremes = JSON.stringify([least, most]);
}

// The states that are seen, at the axis of a series that has some.
function stateTicks({ row, statistics: { least, most } }) {
  const seen = row.states.filter(({ value }) => least <= value && value <= most);
  return seen.map(({ value, name }) => ({ v: value, label: name.length > LONG_STATE ? `${name.slice(0, LONG_STATE)}\u2026` : name }));
}

function optionsOf(panel) {
  const { series } = panel, isSwitch = series[0].row.isSwitch, isOwn = isScaled(series);
  const ends = isOwn ? ['least', 'most'] : isSwitch ? ['off', 'on'] : null, hasStates = series.length === 1 && !isSwitch && series[0].row.states.length > 0;
  const ticksOf = (...words) => ends ? ends.map((label, v) => ({ v, label })) : hasStates ? stateTicks(series[0]) : valueTicks(...words);
  const names = series.map((_, place) => `series ${place}`);
  const keep = (axis, ticks) => {
    panel.ticks[axis] = ticks;
    return ticks;
  };
  return {
    labels: ['time', ...names], colors: series.map(({ colour }) => colour), strokeWidth: 1.4, pointSize: 2.2, legend: 'never', showLabelsOnHighlight: false,
    highlightCircleSize: 0, connectSeparatedPoints: series.length > 1, gridLineColor: '#8885', axisLineColor: '#888', axisLabelFontSize: 13, yRangePad: 8, xRangePad: 0,
    valueRange: ends && [-0.15, 1.15],
    series: Object.fromEntries(names.map((name, place) => [name, { stepPlot: isStep(series[place].row), strokePattern: series[place].dash }])),
    axes: {
      x: { ticker: (...words) => keep('x', timeTicks(...words)), axisLabelFormatter: timeLabel, axisLabelWidth: 96 },
      y: { ticker: (...words) => keep('y', ticksOf(...words)), pixelsPerLabel: 18, axisLabelWidth: labelWidth || 50 },
    },
    underlayCallback: (context, area, graph) => drawUnder(panel, context, area, graph),
    drawCallback: graph => isOurs || followHand(graph),
    interactionModel: handsOf(),
  };
}

// A switch, a count and a code keep their value until the next; what is measured goes over to it.
const isStep = row => row.isSwitch || STEPS.includes(row.unit);

// Below the lines: a band where stamps ran twice, and a mark at the bottom for each word.
function drawUnder({ series }, context, area, graph) {
  context.save();
  for (const { backs, words, colour } of series) {
    context.fillStyle = '#d97b0044';
    for (const [from, to] of backs?.first || []) {
      const left = graph.toDomXCoord(to);
      context.fillRect(left, area.y, Math.max(2, graph.toDomXCoord(from) - left), area.h);
    }
    context.strokeStyle = colour;
    context.lineWidth = 2;
    context.beginPath();
    for (const [x] of words) {
      const at = graph.toDomXCoord(x), bottom = area.y + area.h;
      context.moveTo(at - 4, bottom - 9);
      context.lineTo(at + 4, bottom - 1);
      context.moveTo(at + 4, bottom - 9);
      context.lineTo(at - 4, bottom - 1);
    }
    context.stroke();
  }
  context.restore();
}

// All panels have as much room for their values, and no label is cut.
function alignPanels() {
  const labels = panels.flatMap(({ ticks }) => ticks.y.map(({ label }) => label));
  const wide = Math.ceil(Math.max(30, ...labels.map(widthOf))) + 8;
  if (wide <= labelWidth) return;
  labelWidth = wide;
  isOurs = true;
  for (const { graph } of panels) graph.updateOptions({ axes: { y: { axisLabelWidth: wide } } });
  isOurs = false;
}

// ---- what is said of it -------------------------------------------------------------------------

// A value with the report's places: its digits are the report's where a double holds them all, and else it is said to be near.
function digitsOf(row, value) {
  if (row.isSwitch) return value ? 'on' : 'off';
  const isWhole = Math.abs(value) * 10 ** row.places < 2 ** 52;
  return (isWhole ? '' : '\u2248 ') + value.toFixed(row.places);
}

const stateOf = (row, value) => row.states.find(state => state.value === value)?.name || '';
const textOf = (row, value) => `${digitsOf(row, value)} ${row.unit} ${stateOf(row, value)}`.trim();

function wordsOfBacks(backs) {
  const [from, to] = backs.first[0];
  return `stamps go back ${backs.count === 1 ? 'once' : `${number(backs.count)} times, first`} from ${clock(from)} to ${clock(to)}`;
}

function sayAbout({ about, row, statistics: it, backs }) {
  const said = [count(it.count, 'value')];
  if (it.count && row.isSwitch) said.push(`last ${digitsOf(row, it.last)}`);
  else if (it.count) said.push(`least ${it.leastDigits}`, `most ${it.mostDigits}`, `mean ${it.mean.toFixed(row.places + 1)}`, `last ${it.lastDigits}`);
  KINDS.forEach((kind, k) => it.words[k] && said.push(count(it.words[k], kind)));
  if (backs.count) said.push(`${wordsOfBacks(backs)}: drawn in the order of time`);
  about.textContent = said.join(' \u00b7 ');
}
