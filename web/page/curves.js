// A small curve in each row of the parameters: it is asked for once the row is seen, one after another.
const CURVE = { width: 60, height: 16 }; // pixels, of which each column has the least and the most of a stretch of time

let curvesWanted = [], isSketching = false;

const curvesSeen = new IntersectionObserver(entries => {
  for (const { isIntersecting, target } of entries) if (isIntersecting) {
    curvesSeen.unobserve(target);
    curvesWanted.push(target);
  }
  askCurve();
});

function forgetCurves() {
  [curvesWanted, isSketching] = [[], false];
}

function curveOf(row) {
  const curve = shape('svg', { class: 'curve', 'aria-hidden': true, ...CURVE });
  curve.row = row;
  if (row.curve) drawCurve(curve);
  else if (isDrawn(row)) curvesSeen.observe(curve);
  return curve;
}

function askCurve() {
  curvesWanted = curvesWanted.filter(({ isConnected, row }) => isConnected && !row.curve);
  if (isSketching || !curvesWanted.length) return;
  isSketching = true;
  worker.postMessage({ curve: curvesWanted[0].row.i, columns: CURVE.width });
}

function showCurve(i, columns) {
  isSketching = false;
  parameters.rows[i].curve = columns;
  for (const curve of document.querySelectorAll('.curve')) if (curve.row === parameters.rows[i]) drawCurve(curve);
  askCurve();
}

function drawCurve(curve) {
  const filled = curve.row.curve.map((ends, x) => ends && { x: x + 0.5, ends }).filter(Boolean);
  const least = Math.min(...filled.map(({ ends }) => ends[0])), most = Math.max(...filled.map(({ ends }) => ends[1]));
  const y = value => most > least ? 1 + (CURVE.height - 2) * (most - value) / (most - least) : CURVE.height / 2;
  const points = filled.flatMap(({ x, ends }) => ends.map(value => `${x} ${y(value).toFixed(1)}`));
  curve.replaceChildren(shape('path', { d: `M${points.join('L')}` }));
}
