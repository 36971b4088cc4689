// The readings of a parameter of a controller, as `j39_series` tells them: their moments in milliseconds, their values, and which
// are words. Each is told in 24 bytes: the moment in microseconds, the value in units of its last place, both of 64 bits, the low
// half first, how many places it has, and what it is. Where a double doesn't hold all of a number, its halves are kept too.
const POINT = 24, HIGH = 2 ** 32;
const WIDE = 2 ** 19; // the high half of a number that a double may not hold with all of its digits
const WORDS = [0, 0, 0, 1, 2, 3, 4]; // a number, off and on are drawn; an error, an indicator, a reserved value and a text are words
const MOST_KEPT = 8; // how many parameters' readings are kept: as many as are plotted at once
const GAP = 5, LEAST_GAP = 1000; // a gap is longer than so many medians, and than so many milliseconds

const kept = new Map(); // a row -> its series

// Which readings are asked for: a NAME and whether there is one, an address, a group, a parameter, and a destination, 256 for none.
function originOf({ address, destination, name, pgn, spn }) {
  const bytes = new DataView(new ArrayBuffer(32)), isNamed = !name.startsWith('-');
  bytes.setBigUint64(0, isNamed ? BigInt('0x' + name) : 0n, true);
  [isNamed, parseInt(address, 16), pgn, spn, destination ? parseInt(destination, 16) : 256].forEach((number, k) => bytes.setUint32(8 + 4 * k, number, true));
  return new Uint8Array(bytes.buffer);
}

function pointsIn(bytes) {
  const n = bytes.length / POINT, words = new Uint32Array(bytes.buffer, bytes.byteOffset, 6 * n);
  const it = { n, at: new Float64Array(n), value: new Float64Array(n), kind: new Uint8Array(n), places: new Uint8Array(n) };
  let isWide = false;
  for (let k = 0, i = 0; k < n; k++, i += 6) {
    const high = words[i + 3] | 0;
    isWide = isWide || high >= WIDE || high < -WIDE;
    it.at[k] = (words[i + 1] * HIGH + words[i]) / 1000;
    it.places[k] = words[i + 4];
    it.kind[k] = WORDS[words[i + 5]];
    it.value[k] = it.kind[k] ? NaN : (high * HIGH + words[i + 2]) / 10 ** it.places[k];
  }
  return isWide ? { ...it, low: new Uint32Array(n).map((_, k) => words[6 * k + 2]), high: new Int32Array(n).map((_, k) => words[6 * k + 3]) } : it;
}

// The digits of a number, which are the report's.
function digitsAt({ value, high, low, places }, k) {
  if (!high) return value[k].toFixed(places[k]);
  const number = BigInt(high[k]) * BigInt(HIGH) + BigInt(low[k]), sign = number < 0n ? '-' : '';
  const digits = String(number).replace('-', '').padStart(places[k] + 1, '0'), point = digits.length - places[k];
  return sign + digits.slice(0, point) + (places[k] ? `.${digits.slice(point)}` : '');
}

// Whether a number is below another, which in a double may be the same.
function isBelow({ value, high, low }, j, k) {
  if (!high || value[j] !== value[k]) return value[j] < value[k];
  return high[j] < high[k] || high[j] === high[k] && low[j] < low[k];
}

// Where stamps go back, each as [from, to]; the first hundred, and how many there are.
function backsOf({ at, n }) {
  const backs = { count: 0, first: [] };
  for (let k = 1; k < n; k++) {
    if (at[k] < at[k - 1] && ++backs.count <= 100) backs.first.push([at[k - 1], at[k]]);
  }
  return backs;
}

// The readings in the order of their moments; those of one moment stay in the log's.
function inOrder(series) {
  const backs = backsOf(series);
  if (!backs.count) return { ...series, backs };
  const { at, n } = series;
  const order = Uint32Array.from({ length: n }, (_, k) => k).sort((x, y) => at[x] - at[y] || x - y);
  const sorted = Object.entries(series).map(([name, all]) => [name, name === 'n' ? n : all.map((_, k) => all[order[k]])]);
  return { ...Object.fromEntries(sorted), backs };
}

// A silence that is longer than this is a gap. The steps are put in order in memory that nobody needs any more.
function longestStep({ at, n }, memory) {
  if (n < 2) return Infinity;
  const apart = memory.subarray(0, n - 1);
  for (let k = 1; k < n; k++) apart[k - 1] = at[k] - at[k - 1];
  apart.sort();
  return Math.max(GAP * apart[apart.length >> 1], LEAST_GAP);
}

function seriesIn(bytes) {
  const series = inOrder(pointsIn(bytes));
  return { ...series, longest: longestStep(series, new Float64Array(bytes.buffer, bytes.byteOffset, series.n)) };
}

function readSeries(row) {
  return withText('j39_series', originOf(row), undefined, row.count * POINT + MEMORY_PAGE, seriesIn);
}

// The readings of a row, which are kept.
function seriesOf(i) {
  if (!kept.has(i)) {
    if (kept.size >= MOST_KEPT) kept.delete(kept.keys().next().value);
    kept.set(i, readSeries(asked.rows[i]));
  }
  return kept.get(i);
}
