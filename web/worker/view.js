// What is drawn of a stretch of time, and its statistics.
const MOST_POINTS = 4000; // so many readings are drawn one by one
const SLICES = 2000; // else of each run in each of so many slices of time the least and the most, so that no peak is lost
const MOST_RUNS = 8; // in a slice; what is behind them is drawn as two points

// The place of the first reading that is at x or later; or later than x.
function placeOf({ at, n }, x, isBehind) {
  let low = 0, high = n;
  while (low < high) {
    const middle = (low + high) >> 1;
    if (at[middle] < x || isBehind && at[middle] === x) low = middle + 1;
    else high = middle;
  }
  return low;
}

// Of the readings from `first` up to `last`: how many are numbers, and words of each kind; the least, the most, the mean and the
// last of the numbers, and the digits of these.
function statistics(series, first, last) {
  const { value, kind } = series, words = [0, 0, 0, 0, 0];
  let count = 0, sum = 0, least = -1, most = -1, final = -1;
  for (let k = first; k < last; k++) {
    if (kind[k]) {
      words[kind[k]]++;
      continue;
    }
    count++;
    sum += value[k];
    if (least < 0 || isBelow(series, k, least)) least = k;
    if (most < 0 || isBelow(series, most, k)) most = k;
    final = k;
  }
  if (!count) return { count, words, least: Infinity, most: -Infinity };
  const [leastDigits, mostDigits, lastDigits] = [least, most, final].map(k => digitsAt(series, k));
  return { count, words, least: value[least], most: value[most], mean: sum / count, last: value[final], leastDigits, mostDigits, lastDigits };
}

// The points of the readings from `first` up to `last`, with NaN where the line breaks: behind a gap, and at a word; and the words.
// A run is what stands without a break.
function drawn({ at, value, kind, longest }, first, last, from, to) {
  const points = [], words = [], scale = SLICES / (to - from);
  const isFew = last - first <= MOST_POINTS;
  const sliceOf = k => isFew ? k : Math.floor((at[k] - from) * scale);
  const put = k => points.push([at[k], value[k]]);
  const cut = x => {
    if (points.length && !isNaN(points.at(-1)[1])) points.push([x, NaN]);
  };
  const mark = (k, slice) => {
    const old = words.at(-1);
    if (!old || old[2] !== slice || old[1] !== kind[k]) words.push([at[k], kind[k], slice]);
  };
  let slice = NaN, runs = 0;
  for (let k = first; k < last;) {
    runs = sliceOf(k) === slice ? runs + 1 : 1;
    slice = sliceOf(k);
    if (kind[k]) {
      mark(k, slice);
      cut(at[k++]);
      continue;
    }
    if (k > first && at[k] - at[k - 1] > longest) cut(at[k - 1]);
    const isMerged = runs > MOST_RUNS;
    let low = k, high = k;
    for (k++; k < last && sliceOf(k) === slice && (isMerged || !kind[k] && at[k] - at[k - 1] <= longest); k++) {
      if (kind[k]) mark(k, slice);
      if (value[k] < value[low]) low = k;
      if (value[k] > value[high]) high = k;
    }
    put(Math.min(low, high));
    if (isMerged) cut(at[Math.min(low, high)]);
    if (low !== high) put(Math.max(low, high));
    if (isMerged) cut(at[Math.max(low, high)]);
  }
  return { points, words: words.map(([x, which]) => [x, which]) };
}

// What is shown of a row from one moment to another: with the readings just before and behind, to which lines lead.
function shownOf(i, from, to) {
  const series = seriesOf(i);
  const first = placeOf(series, from), last = placeOf(series, to, true);
  return {
    i, backs: series.backs, statistics: statistics(series, first, last),
    ...drawn(series, Math.max(0, first - 1), Math.min(series.n, last + 1), from, to),
  };
}

// All of the time that these rows have readings in.
function wholeOf(chosen) {
  const all = chosen.map(seriesOf);
  const begin = Math.min(...all.map(({ at }) => at[0])), end = Math.max(...all.map(({ at, n }) => at[n - 1]));
  return begin < end ? [begin, end] : [begin - 500, end + 500];
}

// What is shown of some rows, in a stretch of time or in all of it.
function viewOf({ chosen, view }) {
  const whole = wholeOf(chosen);
  const [from, to] = view || whole;
  return { whole, from, to, shown: chosen.map(i => shownOf(i, from, to)) };
}

// The least and the most number in each of so many stretches of a row's time, and null where there is none. Its readings aren't kept.
function columnsOf(i, size) {
  const { at, value, kind, n } = kept.get(i) || readSeries(asked.rows[i]);
  const scale = (size - 1) / (at[n - 1] - at[0] || 1), columns = new Array(size).fill(null);
  for (let k = 0; k < n; k++) {
    if (kind[k]) continue;
    const place = Math.floor((at[k] - at[0]) * scale), [least, most] = columns[place] || [Infinity, -Infinity];
    columns[place] = [Math.min(least, value[k]), Math.max(most, value[k])];
  }
  return columns;
}
