// The fault codes below the plots: a band from where each was told first to where it was told no more.
const MOST_BANDS = 30;
const BAND_HEIGHT = 8; // pixels

// When each code was told without a break, in seconds; what is active at the end has no end.
function stretchesOf(lines) {
  const { active, ended } = standingOf(lines);
  const standing = [...active.values()].flatMap(({ codes }) => [...codes.values()].map(({ code, since }) => ({ code, since, until: Infinity })));
  return Map.groupBy([...ended, ...standing].sort((x, y) => x.since - y.since), ({ code }) => `${boxOf(code.address)}: ${wordsOfCode(code)}`);
}

function drawBands() {
  const all = [...stretchesOf(glance.codes || [])].slice(0, MOST_BANDS), graph = panels[0]?.graph;
  $('bands').hidden = !graph || !all.length;
  if ($('bands').hidden) return;
  const { x, w } = graph.getArea();
  const at = moment => Math.min(x + w, Math.max(x, graph.toDomXCoord(moment * 1000)));
  $('bands').replaceChildren(element('h3', 'Fault codes'), ...all.map(([title, stretches]) => {
    const line = element('div', undefined, 'band'), bars = shape('svg', { width: x + w, height: BAND_HEIGHT });
    for (const { since, until } of stretches) {
      const [from, to] = [at(since), at(until)];
      if (to > from) bars.append(shape('rect', { x: from, width: Math.max(1, to - from), height: BAND_HEIGHT }));
    }
    line.append(element('span', title), bars);
    return line;
  }));
}
