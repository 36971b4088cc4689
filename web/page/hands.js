// What a hand does on a graph, by mouse, fingers and keys; and the cursor, a line at one moment over all panels.
const ALONG_TIME = 1; // as dygraphs calls a drag to the side
const NEAR = 6; // pixels within which a reading that stands alone is met

let cursor = null; // a moment

// All graphs at once follow what one shows; the readings come a moment later.
function followView() {
  const [from, to] = shownTime();
  isOurs = true;
  for (const { graph } of panels) if (graph) graph.updateOptions({ dateWindow: [from, to] });
  isOurs = false;
  drawBands();
  setCursor(cursor);
}

function followHand(graph) {
  const [from, to] = graph.xAxisRange(), [begin, end] = shownTime();
  if (from !== begin || to !== end) go([from, to]);
}

function handsOf() {
  const hands = Dygraph.defaultInteractionModel;
  const ofTwo = act => (event, graph, context) => {
    if (event.touches.length < 2) return;
    act(event, graph, context);
    context.touchDirections = { x: true, y: false };
  };
  return {
    mousedown: (event, graph, context) => {
      // A drag is one along the time: a part of the values alone would hide others.
      Object.defineProperty(context, 'dragDirection', { get: () => ALONG_TIME, set() {}, configurable: true });
      hands.mousedown(event, graph, context);
    },
    willDestroyContextMyself: true, dblclick: showWhole,
    touchstart: ofTwo(hands.touchstart), touchmove: ofTwo(hands.touchmove),
    mousemove: (event, graph) => setCursor(momentAt(event, graph)), mouseout: () => setCursor(null),
    wheel: (event, graph) => {
      const isNearer = event.deltaY < 0;
      if (!event.deltaY || !isNearer && !view) return;
      event.preventDefault();
      zoom(isNearer ? 0.8 : 1.25, momentAt(event, graph));
    },
  };
}

const momentAt = (event, graph) => graph.toDataXCoord(graph.eventToDomCoords(event)[0]);

// ---- the cursor ---------------------------------------------------------------------------------

function setCursor(moment) {
  cursor = moment;
  for (const panel of panels) if (panel.graph) drawCursor(panel);
}

function drawCursor({ graph, line, series }) {
  const { x, y, w, h } = graph.getArea();
  const left = cursor === null ? NaN : graph.toDomXCoord(cursor);
  line.hidden = !(left >= x && left <= x + w);
  if (!line.hidden) Object.assign(line.style, { left: `${left}px`, top: `${y}px`, height: `${h}px` });
  for (const one of series) one.value.textContent = line.hidden ? '' : readingAt(one, graph);
}

// The first point of a series at a moment or behind it.
function pointBehind(points, moment) {
  let low = 0, high = points.length;
  while (low < high) {
    const middle = (low + high) >> 1;
    if (points[middle][0] < moment) low = middle + 1;
    else high = middle;
  }
  return low;
}

const isNumber = point => point !== undefined && !isNaN(point[1]);

// What is read at the cursor: a value on whose line it stands, or one or a word that is near.
function readingAt({ points, words, row }, graph) {
  const behind = pointBehind(points, cursor);
  const [before, after] = [points[behind - 1], points[behind]];
  const far = it => Math.abs(graph.toDomXCoord(it[0]) - graph.toDomXCoord(cursor));
  const word = words.find(it => far(it) <= NEAR);
  if (word) return `${KINDS[word[1]]} at ${clock(word[0], shownTime())}`;
  const isOnLine = isNumber(before) && isNumber(after);
  const all = [before, after].filter(it => isNumber(it) && (isOnLine || far(it) <= NEAR));
  if (!all.length) return 'no value';
  const met = isOnLine && isStep(row) ? before : all.reduce((a, b) => far(b) < far(a) ? b : a);
  return `${textOf(row, met[1])} at ${clock(met[0], shownTime())}`;
}

// ---- keys ---------------------------------------------------------------------------------------

// Takes the cursor to the next reading that is drawn, or to the one before.
function stepCursor(panel, step) {
  const moments = panel.series.flatMap(({ points, words }) => [...points.filter(isNumber), ...words]).map(([x]) => x).sort((a, b) => a - b);
  const [from, to] = shownTime();
  const inView = moments.filter(x => x >= from && x <= to);
  if (!inView.length) return;
  const next = step > 0 ? inView.find(x => cursor === null || x > cursor) : inView.findLast(x => cursor === null || x < cursor);
  setCursor(next ?? (step > 0 ? inView.at(-1) : inView[0]));
}

function middle() {
  const [from, to] = shownTime();
  return cursor !== null && cursor >= from && cursor <= to ? cursor : (from + to) / 2;
}

const nearer = () => whole && zoom(0.5, middle());
const farther = () => whole && zoom(2, middle());

function hearKey(event) {
  const panel = panels.find(({ graphAt }) => graphAt === event.target);
  if (!panel?.graph || event.ctrlKey || event.altKey || event.metaKey) return;
  const act = {
    ArrowRight: () => event.shiftKey ? move(0.25) : stepCursor(panel, 1), ArrowLeft: () => event.shiftKey ? move(-0.25) : stepCursor(panel, -1),
    '+': nearer, '=': nearer, '-': farther, Backspace: goBack,
  }[event.key];
  if (!act) return;
  event.preventDefault();
  act();
}
