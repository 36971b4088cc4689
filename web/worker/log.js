// The log that is shown: what is made of it first, and what it is kept for.
const MOST_TABLE = 1 << 20; // bytes of a table; the module refuses more
const NAME_FIELDS = ['arbitrary', 'industry', 'systemInstance', 'system', 'reserved', 'function',
  'functionInstance', 'ecuInstance', 'manufacturer', 'identity'];

let asked = null; // {file, bus, table, named, rows}
let place = null; // the instance in whose memory it lies, as `given`; another one once its report was made

// Lays the log into an instance's memory, with its interface's name and its table; once more where need be.
async function layLog(tell) {
  const it = place = place || instance();
  if (it.given) return;
  const log = { at: it.free, size: asked.file.size };
  it.free += (log.size + 7) & ~7;
  grow(it.it.memory, it.free);
  await load(asked.file, log.at, it.it.memory, tell);
  it.given = [log, put(it, asked.bus), put(it, asked.table)];
}

// The states that a line of the table names behind its last ` = `, by their values.
function statesOf(line) {
  const [, , , , step, offset] = line.split(' ');
  const [, states] = / = (\d+ [^=]*)$/.exec(line) || [, ''];
  return states.split(/, (?=\d+ )/).filter(Boolean).map(state => {
    const [raw] = state.split(' ', 1);
    return { value: Number(raw) * Number(step) + Number(offset), name: state.slice(raw.length + 1) };
  });
}

// What the table says of each parameter, 'PGN SPN' -> its group's name and its states; or the words for a table that is none.
function tableRows(given) {
  const it = place = place || instance(), { free } = it;
  const table = put(it, given.bytes);
  const { answer, bytes } = textOf(it, 'j39_groups', [table], ROOM, WRONG_TABLE);
  it.free = free;
  const text = textIn(bytes);
  if (answer === WRONG_TABLE) throw new Error(given.name + text);
  const rows = new Map();
  for (const line of text.split('\n')) {
    const [pgn, group, spn] = line.split(' ');
    if (line) rows.set(pgn + ' ' + spn, { group, states: statesOf(line) });
  }
  return rows;
}

// The bytes of the user's table; none without one.
function tableOf(file) {
  if (!file) return { name: '', bytes: new Uint8Array(0) };
  if (file.size === 0) throw new Error(`${file.name} is empty`);
  const front = file.slice(0, MOST_TABLE + 1);
  return { name: file.name, bytes: new Uint8Array(new FileReaderSync().readAsArrayBuffer(front)) };
}

function fieldsOf({ it, told }, name) {
  it.j39_name(BigInt.asIntN(64, BigInt('0x' + name)), BigInt(told));
  const words = new Uint32Array(it.memory.buffer, told, NAME_FIELDS.length);
  return Object.fromEntries(NAME_FIELDS.map((field, i) => [field, words[i]]));
}

// Posts the parameters of a log.
async function readLog({ files, bus, table }, tell, post) {
  const given = tableOf(table);
  const turned = await asOneLog(files);
  asked = { file: turned.file, bus: new TextEncoder().encode(bus), table: given.bytes, named: tableRows(given), rows: [] };
  await layLog(tell);
  tell(0, 0);
  const summary = textOf(place, 'j39_summary', place.given, 4 * ROOM);
  asked.rows = rowsOf(textIn(summary.bytes), asked.named);
  const { frames, other, unread, messages } = summary.counts;
  const values = asked.rows.reduce((sum, row) => sum + row.count, 0);
  const size = files.reduce((sum, file) => sum + file.size, 0);
  const told = { size, kind: turned.kind, table: given.name, counts: { frames, other, unread, messages, values } };
  post({ log: told, rows: asked.rows });
}

// Posts the rest of what is shown of it, as it is made.
function readRest(post) {
  const it = place;
  const [log, named] = it.given;
  post({ faults: new Blob([textOf(it, 'j39_faults', it.given, ROOM).bytes], { type: 'text/plain' }) });
  const holders = textIn(textOf(it, 'j39_nodes', [log, named], MEMORY_PAGE).bytes).split('\n').filter(Boolean);
  post({ nodes: holders.map(line => {
    const [address, name, claimed, heard] = line.split(' ').map(field => field.replace(/^-+$/, ''));
    const [, longest, since] = / longest (\S+) since \((\S+)\)/.exec(line) || [];
    return { address, name, claimed, heard, longest, since, fields: name ? fieldsOf(it, name) : {} };
  }) });
  post({ survey: textIn(textOf(it, 'j39_survey', it.given, ROOM).bytes) });
}

// The report of the whole log. Its room is as much memory again, and more, and goes with the instance.
function report(tell) {
  const it = place;
  tell(0, 0);
  place = null;
  return new Blob([textOf(it, 'j39_report', it.given, 2 * asked.file.size + MEMORY_PAGE).bytes], { type: 'text/plain' });
}

// What `use` makes of the text of a call that is told these bytes besides: so many of a kind, or one thing where no size is given.
// The text is gone with the next call.
function withText(call, bytes, size, room, use) {
  const { free } = place, { at } = put(place, bytes);
  const made = use(textOf(place, call, [...place.given, { at, size }], room).bytes);
  place.free = free;
  return made;
}
