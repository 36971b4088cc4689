// Which stretch of time is shown: all panels share it. One is left by another, and there is a way back and forth.
const LEAST_VIEW = 1; // milliseconds
const SAME_MOVE = 700; // milliseconds in which turns of a wheel are one step

let whole = null; // all of the time of what is plotted, as [from, to]
let view = null; // what is shown of it; none for all
let past = [], future = [], moved = 0;
let ticket = 0, isAsked = false, isStale = false;

const shownTime = () => view || whole;

function forgetViews() {
  [whole, view, past, future, isAsked, isStale, cursor] = [null, null, [], [], false, false, null];
  ticket++;
}

// Asks the worker for what is shown; while it is at work, once more when it is done.
function look() {
  showViewButtons();
  if (!chosen.length) return;
  isStale = isAsked;
  if (isAsked) return;
  isAsked = true;
  worker.postMessage({ look: { chosen, view }, ticket: ++ticket });
}

function showView(it, itsTicket) {
  if (itsTicket !== ticket) return;
  isAsked = false;
  whole = it.whole;
  if (isStale) return look();
  sayRead();
  drawPanels(it);
  setCursor(cursor);
  showViewButtons();
}

// A stretch inside all of the time; none where it is all of it.
function within([from, to]) {
  const [begin, end] = whole;
  const length = Math.max(LEAST_VIEW, to - from);
  if (length >= end - begin) return null;
  const first = Math.min(Math.max(from, begin), end - length);
  return [first, first + length];
}

// Shows another stretch. What belongs to one move is one step back.
function go(stretch) {
  if (!whole) return;
  if (performance.now() - moved > SAME_MOVE) past.push(view);
  moved = performance.now();
  future = [];
  view = stretch && within(stretch);
  followView();
  look();
}

function goAlong(from, to) {
  if (!from.length) return;
  to.push(view);
  view = from.pop();
  moved = 0;
  followView();
  look();
}

const goBack = () => goAlong(past, future);
const goForth = () => goAlong(future, past);
const showWhole = () => view && go(null);

// Shows a part as long as `factor` of it, with one moment where it is.
function zoom(factor, moment) {
  if (!whole) return;
  const [from, to] = shownTime();
  go([moment - (moment - from) * factor, moment + (to - moment) * factor]);
}

function move(share) {
  if (!whole) return;
  const [from, to] = shownTime();
  go([from + (to - from) * share, to + (to - from) * share]);
}

function showViewButtons() {
  $('back').disabled = !past.length;
  $('forth').disabled = !future.length;
  $('whole').disabled = !view;
  for (const id of ['save-values', 'save-png', 'save-svg', 'nearer', 'farther', 'earlier', 'later']) $(id).disabled = !chosen.length;
}
