// Moments, in milliseconds, and numbers as the axes have them.
const NO_DATE = 1e11; // a stamp below is no date (it would be of 1973), but seconds
const QUARTER = 15000; // of a minute
const THIN_SPACE = '\u2009';

const two = n => String(n).padStart(2, '0');
const isLocal = () => $('zone-local').checked;

function partsOf(moment) {
  const day = new Date(moment);
  const part = name => day[(isLocal() ? 'get' : 'getUTC') + name]();
  return {
    date: `${part('FullYear')}-${two(part('Month') + 1)}-${two(part('Date'))}`,
    time: `${two(part('Hours'))}:${two(part('Minutes'))}:${two(part('Seconds'))}`, millis: part('Milliseconds'),
  };
}

// A moment to the millisecond; of a view of one day without the date.
function clock(moment, [from, to] = [0, 0]) {
  if (moment < NO_DATE) return `${+(moment / 1000).toFixed(3)} s`;
  const { date, time, millis } = partsOf(moment), exact = `${time}.${String(millis).padStart(3, '0')}`;
  if (partsOf(from).date === date && partsOf(to).date === date) return exact;
  return `${date} ${exact}${isLocal() ? '' : ' UTC'}`;
}

// How many places of a second the ticks of a time axis differ by.
function placesOf(granularity) {
  const { TEN_MILLISECONDLY, HUNDRED_MILLISECONDLY, SECONDLY } = Dygraph.Granularity;
  if (granularity < TEN_MILLISECONDLY) return 3;
  if (granularity < HUNDRED_MILLISECONDLY) return 2;
  return granularity < SECONDLY ? 1 : 0;
}

// What stands at a tick of the time axis: the time of day, and at midnight the date.
function timeLabel(day, granularity) {
  const places = placesOf(granularity);
  if (day < NO_DATE) return `${(day / 1000).toFixed(places)} s`;
  const { date, time, millis } = partsOf(day);
  if (granularity >= Dygraph.Granularity.DAILY || time === '00:00:00' && millis === 0) return date;
  if (granularity >= Dygraph.Granularity.MINUTELY) return time.slice(0, 5);
  return places ? `${time}.${String(millis).padStart(3, '0').slice(0, places)}` : time;
}

const pen = document.createElement('canvas').getContext('2d');
function widthOf(label) {
  pen.font = `14px ${getComputedStyle(document.body).fontFamily}`;
  return pen.measureText(label).width;
}

// Ticks at each quarter of a minute, which dygraphs doesn't know.
function quarterTicks(from, to) {
  const first = Math.ceil(from / QUARTER) * QUARTER;
  return Array.from({ length: Math.floor((to - first) / QUARTER) + 1 }, (_, k) => {
    const v = first + k * QUARTER;
    return { v, label: timeLabel(v, Dygraph.Granularity.SECONDLY) };
  });
}

// The ticks of a time axis: two at least, where their labels have room.
function timeTicks(from, to, pixels, options, graph) {
  const roomAt = step => pixels / Math.round((to - from) / step);
  const ticksOf = room => (roomAt(10000) < room && roomAt(QUARTER) >= room ? quarterTicks(from, to)
    : Dygraph.dateTicker(from, to, pixels, name => name === 'pixelsPerLabel' ? room : options(name), graph))
    .filter(({ v }) => v >= from && v <= to);
  const apart = (a, b) => (b.v - a.v) / (to - from) * pixels - (widthOf(a.label) + widthOf(b.label)) / 2;
  const fits = ticks => ticks.length > 1 && ticks.every((tick, k) => k === 0 || apart(ticks[k - 1], tick) > 4);
  return [105, 85, 65, 50].map(ticksOf).find(fits) || ticksOf(105);
}

function grouped(digits) {
  const [whole, places] = digits.split('.');
  const apart = whole.length > 7 ? whole.replace(/\B(?=(\d{3})+$)/g, THIN_SPACE) : whole;
  return places ? `${apart}.${places}` : apart;
}

// A number with so many places; never as a power.
function fixed(value, places) {
  return grouped(Math.abs(value) < 1e21 ? value.toFixed(places) : String(BigInt(value)));
}

// The ticks of a value's axis, with as many places as their distance wants.
function valueTicks(a, b, pixels, options, graph) {
  const ticks = Dygraph.numericTicks(a, b, pixels, options, graph);
  const step = ticks.length > 1 ? Math.abs(ticks[1].v - ticks[0].v) : 1;
  const places = Math.min(20, Math.max(0, -Math.floor(Math.log10(step) + 1e-9)));
  return ticks.map(({ v }) => ({ v, label: fixed(v + 0, places) }));
}
