// Logs of other tools, turned into lines of candump. That isn't proved, and the page says so. A moment that such a log tells as a time
// of day is taken as UTC.
const FRONT = 4096; // bytes by which a log is known
const MOST_LINES = 20000; // lines that are handed on at once
const DAYS_TO_1970 = 25569; // since 30 December 1899, from which PEAK counts days
const EXTENDED = 0x80000000, REMOTE = 0x80; // flags of an identifier, and of a message, in BLF
const CONTAINER = 10, MESSAGES = [1, 86], DEFLATED = 2; // kinds of objects, and the method of a container, in BLF

const hex = (number, digits) => number.toString(16).toUpperCase().padStart(digits, '0');

// A line of candump; a channel is counted from 1.
function candumpLine(micros, channel, id, isExtended, data) {
  const stamp = `${String(Math.floor(micros / 1e6)).padStart(10, '0')}.${String(micros % 1e6).padStart(6, '0')}`;
  return `(${stamp}) can${channel - 1} ${hex(id, isExtended ? 8 : 3)}#${data}\n`;
}

async function* linesIn(file) {
  let kept = '';
  const reader = file.stream().pipeThrough(new TextDecoderStream('latin1')).getReader();
  for (;;) {
    const { done, value } = await reader.read();
    if (done) break;
    const lines = (kept + value).split('\n');
    kept = lines.pop();
    yield* lines;
  }
  if (kept) yield kept;
}

// The lines of candump that a reader makes of a log's lines; it answers an empty text where a line is no data frame.
async function turnLines(file, read) {
  const parts = [];
  let part = [];
  for await (const line of linesIn(file)) {
    part.push(read(line.trim()));
    if (part.length < MOST_LINES) continue;
    parts.push(part.join(''));
    part = [];
  }
  return new Blob([...parts, part.join('')]);
}

// ---- ASC (Vector) -------------------------------------------------------------------------------

const ASC_DATE = /(\w{3}) +(\d+) +(\d+):(\d+):(\d+)(\.\d+)? *(am|pm)? +(\d{4})/i;
const ASC_FRAME = /^(\d+)\.(\d+)\s+(\d+)\s+([0-9a-f]+)(x?)\s+(?:Rx|Tx)\s+d\s+([0-9a-f]+)((?:\s+[0-9a-f]+)*)/i;

function microsOfDate(text) {
  const found = ASC_DATE.exec(text);
  if (!found) return 0;
  const [, month, day, hours, minutes, seconds, part, half, year] = found;
  const hour = half ? Number(hours) % 12 + (half.toLowerCase() === 'pm' ? 12 : 0) : Number(hours);
  const moment = Date.parse(`${day} ${month} ${year} ${hour}:${minutes}:${seconds} UTC`);
  return isNaN(moment) ? 0 : moment * 1000 + Math.round(Number(part || 0) * 1e6);
}

function ascReader() {
  let base = 16, isRelative = false, start = 0, last = 0;
  return line => {
    if (/^base\s/i.test(line)) [base, isRelative] = [/^base\s+dec/i.test(line) ? 10 : 16, /timestamps\s+relative/i.test(line)];
    else if (/^(date|begin\s+triggerblock)\s/i.test(line)) start = microsOfDate(line);
    const found = ASC_FRAME.exec(line);
    if (!found) return '';
    const [, seconds, part, channel, id, extended, size, bytes] = found;
    const moment = Number(seconds) * 1e6 + Math.round(Number(`0.${part}`) * 1e6);
    last = isRelative ? last + moment : moment;
    const data = bytes.trim().split(/\s+/).slice(0, parseInt(size, 16)).filter(Boolean).map(byte => hex(parseInt(byte, base), 2));
    return candumpLine(start + last, Number(channel), parseInt(id, base), extended !== '', data.join(''));
  };
}

// ---- TRC (PEAK) ---------------------------------------------------------------------------------

const TRC_COLUMNS = { '1.0': 'N,O,I,l,D', 1.1: 'N,O,d,I,l,D', 1.2: 'N,O,B,d,I,l,D', 1.3: 'N,O,B,d,I,R,l,D' };

function trcReader() {
  let columns = TRC_COLUMNS['1.0'].split(','), start = 0;
  return line => {
    const [, name, value] = /^;\$(\w+)=(.*)$/.exec(line) || [];
    if (name === 'FILEVERSION' && TRC_COLUMNS[value]) columns = TRC_COLUMNS[value].split(',');
    else if (name === 'COLUMNS') columns = value.split(',');
    else if (name === 'STARTTIME') start = Math.round((Number(value) - DAYS_TO_1970) * 86400e6);
    if (line.startsWith(';') || !line) return '';
    const words = line.split(/\s+/), word = column => words[columns.indexOf(column)];
    const id = word('I'), [way, type] = [word('d'), word('T')], size = columns.findIndex(column => column === 'l' || column === 'L');
    const isData = (type === undefined || type === 'DT') && (way === undefined || way === 'Rx' || way === 'Tx') && /^[0-9a-f]{4,8}$/i.test(id) && id !== 'FFFFFFFF';
    const data = words.slice(columns.length - 1).slice(0, Number(words[size]));
    if (!isData || !data.every(byte => /^[0-9a-f]{2}$/i.test(byte))) return '';
    return candumpLine(start + Math.round(Number(word('O')) * 1000), Number(word('B') || 1), parseInt(id, 16), id.length > 4, data.join('').toUpperCase());
  };
}

// ---- CSV (SavvyCAN) -----------------------------------------------------------------------------

function savvyReader() {
  return line => {
    const [micros, id, extended, , bus, size, ...bytes] = line.split(',');
    if (!/^\d+$/.test(micros) || !/^[0-9a-f]+$/i.test(id)) return '';
    const data = bytes.slice(0, Number(size)).map(byte => hex(parseInt(byte, 16), 2));
    return candumpLine(Number(micros), Number(bus) + 1, parseInt(id, 16), extended.toLowerCase() === 'true', data.join(''));
  };
}

// ---- BLF (Vector) -------------------------------------------------------------------------------

const viewOf8 = bytes => new DataView(bytes.buffer, bytes.byteOffset, bytes.byteLength);
const isObject = (bytes, at) => letters(bytes.subarray(at, at + 4)) === 'LOBJ';

// What a container holds.
async function unpacked(bytes) {
  const packed = new Blob([bytes.subarray(16)]);
  if (viewOf8(bytes).getUint16(0, true) !== DEFLATED) return packed;
  return new Response(packed.stream().pipeThrough(new DecompressionStream('deflate'))).blob();
}

// The objects that lie in some bytes, and where those end of which not all is there.
function objectsIn(bytes) {
  const objects = [];
  let at = 0;
  for (;;) {
    while (at + 4 <= bytes.length && !isObject(bytes, at)) at++;
    if (at + 16 > bytes.length) break;
    const size = viewOf8(bytes).getUint32(at + 8, true);
    if (size < 16 || at + size > bytes.length) break;
    objects.push({ kind: viewOf8(bytes).getUint32(at + 12, true), bytes: bytes.subarray(at + 16, at + size) });
    at += size;
  }
  return { objects, rest: bytes.slice(at) };
}

// The line of a message: flags and moment stand in what is left of its header, then channel, flags, size, identifier and data.
function blfLine({ kind, bytes }, start) {
  if (!MESSAGES.includes(kind)) return '';
  const view = viewOf8(bytes), id = view.getUint32(20, true), size = Math.min(8, view.getUint8(19));
  if (view.getUint8(18) & REMOTE) return '';
  const moment = Number(view.getBigUint64(8, true)), micros = Math.round(view.getUint32(0, true) === 1 ? moment * 10 : moment / 1000);
  const data = [...bytes.subarray(24, 24 + size)].map(byte => hex(byte, 2));
  return candumpLine(start + micros, view.getUint16(16, true), id % EXTENDED & 0x1FFFFFFF, id >= EXTENDED, data.join(''));
}

async function turnBlf(file) {
  const bytes = new Uint8Array(await file.arrayBuffer()), view = viewOf8(bytes);
  const [year, month, , day, hours, minutes, seconds, millis] = Array.from({ length: 8 }, (_, k) => view.getUint16(40 + 2 * k, true));
  const start = year ? Date.UTC(year, month - 1, day, hours, minutes, seconds, millis) * 1000 : 0;
  const parts = [];
  let rest = new Uint8Array(0);
  for (const { kind, bytes: packed } of objectsIn(bytes.subarray(view.getUint32(4, true))).objects) {
    if (kind !== CONTAINER) continue;
    const content = await new Blob([rest, await unpacked(packed)]).arrayBuffer(), found = objectsIn(new Uint8Array(content));
    rest = found.rest;
    parts.push(found.objects.map(object => blfLine(object, start)).join(''));
  }
  return new Blob(parts);
}

// ---- what a log is ------------------------------------------------------------------------------

// The name of another tool's log by its first bytes, and what turns it.
function turnOf(front) {
  const text = letters(front);
  if (text.startsWith('LOGG')) return ['BLF (Vector)', turnBlf];
  if (/^(?:\s*\/\/[^\n]*\n)*\s*(?:date\s+\w|base\s+(?:hex|dec)\b)/i.test(text)) return ['ASC (Vector)', file => turnLines(file, ascReader())];
  if (/^;\$FILEVERSION=/m.test(text) || /^;.*\n[^]*^\s*\d+\)\s/m.test(text)) return ['TRC (PEAK)', file => turnLines(file, trcReader())];
  if (/^Time Stamp,ID,Extended,/.test(text)) return ['CSV (SavvyCAN)', file => turnLines(file, savvyReader())];
  return null;
}

// The log as candump's lines, and what it was turned from, where it was: what is packed (gz) is unpacked first.
async function asCandump(file) {
  const front = new Uint8Array(await file.slice(0, FRONT).arrayBuffer());
  if (front[0] === 0x1F && front[1] === 0x8B) {
    const content = await new Response(file.stream().pipeThrough(new DecompressionStream('gzip'))).blob();
    const turned = await asCandump(new File([content], file.name));
    return { file: turned.file, kind: turned.kind ? `${turned.kind}, packed` : 'gz' };
  }
  const [kind, turn] = turnOf(front) || [''];
  return { file: turn ? new File([await turn(file)], file.name) : file, kind };
}
