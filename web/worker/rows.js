// The rows of the summary: the parameters of the log.

// The fields of each record of comma-separated values (RFC 4180); one in quotes keeps them.
function recordsOf(text) {
  const records = [];
  let fields = [];
  for (let i = 0; i < text.length; i++) {
    let end = i;
    if (text[i] === '"') {
      do end = text.indexOf('"', end + 1) + 1; while (text[end] === '"');
      fields.push(`"${text.slice(i + 1, end - 1).replaceAll('""', '"')}"`);
    } else {
      while (text[end] !== ',' && text[end] !== '\r') end++;
      fields.push(text.slice(i, end));
    }
    i = end;
    if (text[i] === '\r') {
      records.push(fields);
      fields = [];
      i++;
    }
  }
  return records;
}

const isQuoted = field => field.startsWith('"');
const bare = field => isQuoted(field) ? field.slice(1, -1) : field;

// What the page shows of each parameter of a controller, in the module's words. A text is in quotes; it isn't plotted, nor is
// what has words alone, as `error`. A switch has no least and no most.
function rowsOf(text, named) {
  const [columns, ...records] = recordsOf(text);
  const rows = records.map(fields => {
    const record = Object.fromEntries(columns.map((column, k) => [column, fields[k]]));
    const { address, destination, name, pgn, spn, values, words, absent, least, most, first, last, state } = record;
    return {
      address, destination, name: name || '-'.repeat(16), pgn, spn, ...named.get(pgn + ' ' + spn) || { group: '', states: [] }, title: bare(record.parameter), unit: bare(record.unit), count: Number(values), errors: Number(words), absent: Number(absent),
      first, last, state: bare(state), least, most, isPlotted: values !== words && !isQuoted(first) && !isQuoted(last), isSwitch: least === '',
      places: least.includes('.') ? least.length - least.indexOf('.') - 1 : 0,
    };
  });
  rows.sort((x, y) => x.address.localeCompare(y.address) || x.destination.localeCompare(y.destination) || x.pgn - y.pgn || x.spn - y.spn || x.name.localeCompare(y.name));
  rows.forEach((row, i) => { row.i = i; });
  return rows;
}
