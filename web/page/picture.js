// The plot as a picture: drawn as SVG of what the graphs show, of which PNG is made too.
const SVG = 'http://www.w3.org/2000/svg';
const TITLE = 18, BESIDE = 26; // pixels of a line of text, and of the times below a graph

function shape(name, attributes, text) {
  const it = document.createElementNS(SVG, name);
  for (const [key, value] of Object.entries(attributes)) it.setAttribute(key, value);
  if (text !== undefined) it.textContent = text;
  return it;
}

const ink = name => getComputedStyle(document.documentElement).getPropertyValue(`--${name}`);
const words = (text, x, y, more) => shape('text', { x, y, fill: ink('ink'), ...more }, text);

// The path of a series, and its points that stand alone.
function pathOf({ points, row, scale }, place) {
  const drawn = points.map(([x, y]) => isNaN(y) ? null : place(x, scale(y)));
  let path = '';
  const alone = [];
  drawn.forEach((it, k) => {
    if (!it) return;
    const before = drawn[k - 1];
    if (!before) path += `M${it[0]} ${it[1]}`;
    else path += isStep(row) ? `H${it[0]}V${it[1]}` : `L${it[0]} ${it[1]}`;
    if (!before && !drawn[k + 1]) alone.push(it);
  });
  return { path, alone };
}

function drawSeries(one, graph, sheet, bottom) {
  const round = n => Math.round(n * 100) / 100;
  const { path, alone } = pathOf(one, (x, y) => [round(graph.toDomXCoord(x)), round(graph.toDomYCoord(y))]);
  const stroke = { stroke: one.colour, fill: 'none', 'stroke-width': 1.4 };
  sheet.append(shape('path', { d: path, ...stroke, ...one.dash && { 'stroke-dasharray': one.dash.join(' ') } }));
  for (const [cx, cy] of alone) sheet.append(shape('circle', { cx, cy, r: 2.2, fill: one.colour }));
  for (const [x] of one.words) {
    const at = round(graph.toDomXCoord(x));
    sheet.append(shape('path', { d: `M${at - 4} ${bottom - 9}l8 8m0 -8l-8 8`, ...stroke }));
  }
}

function drawAxes({ graph, ticks }, sheet) {
  const { x, y, w, h } = graph.getArea();
  const grid = { stroke: '#8885' };
  for (const { v, label } of ticks.y) {
    const at = graph.toDomYCoord(v);
    if (at < y - 1 || at > y + h + 1) continue;
    sheet.append(shape('path', { d: `M${x} ${at}h${w}`, ...grid }), words(label, x - 6, at + 4, { 'text-anchor': 'end' }));
  }
  for (const { v, label } of ticks.x) {
    const at = graph.toDomXCoord(v);
    if (at < x - 1 || at > x + w + 1) continue;
    sheet.append(shape('path', { d: `M${at} ${y}v${h}`, ...grid }), words(label, at, y + h + 18, { 'text-anchor': 'middle' }));
  }
  sheet.append(shape('rect', { x, y, width: w, height: h, fill: 'none', stroke: ink('soft') }));
}

// A panel from `top` on; answers where it ends.
function drawInto(svg, panel, top, place) {
  const { graph, series } = panel, { x, y, w, h } = graph.getArea();
  let line = top;
  for (const one of series) {
    svg.append(words(titleOf(one.row), 8, line + 14, { fill: one.colour, 'font-weight': 600 }), words(one.about.textContent, 8, line + 14 + TITLE, { fill: ink('soft') }));
    line += 2 * TITLE;
  }
  const sheet = shape('g', { transform: `translate(0 ${line + 6})` }), inside = shape('g', { 'clip-path': `url(#area${place})` });
  const area = shape('clipPath', { id: `area${place}` });
  area.append(shape('rect', { x, y, width: w, height: h }));
  drawAxes(panel, sheet);
  for (const one of series) drawSeries(one, graph, inside, y + h);
  sheet.append(area, inside);
  svg.append(sheet);
  return line + h + BESIDE + 16;
}

function pictureOf() {
  const width = panels[0].graphAt.offsetWidth + 8, [from, to] = shownTime();
  const svg = shape('svg', { xmlns: SVG, 'font-family': 'system-ui, sans-serif', 'font-size': 13 });
  const back = shape('rect', { width: '100%', height: '100%', fill: ink('sheet') });
  svg.append(back, words(log.name, 8, 20, { 'font-size': 16, 'font-weight': 600 }), words(`${clock(from)} to ${clock(to)}`, 8, 40));
  let top = 52;
  panels.forEach((panel, place) => { top = drawInto(svg, panel, top, place); });
  for (const [key, value] of Object.entries({ width, height: top, viewBox: `0 0 ${width} ${top}` })) svg.setAttribute(key, value);
  return { svg: new XMLSerializer().serializeToString(svg), width, height: top };
}

function saveSvg() {
  save(new Blob([pictureOf().svg], { type: 'image/svg+xml' }), `${stem()}.svg`);
}

async function savePng() {
  const { svg, width, height } = pictureOf(), image = new Image();
  image.src = `data:image/svg+xml,${encodeURIComponent(svg)}`;
  await image.decode();
  const canvas = element('canvas');
  Object.assign(canvas, { width: 2 * width, height: 2 * height });
  canvas.getContext('2d').drawImage(image, 0, 0, canvas.width, canvas.height);
  canvas.toBlob(blob => save(blob, `${stem()}.png`));
}
