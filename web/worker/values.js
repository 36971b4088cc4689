// The readings of some rows in a stretch of time, as the module's records (those of `j1939 report --csv`).
const PIECE = 1 << 20; // bytes of records that are looked through at once
const OWN_FIELDS = ['address', 'destination', 'name', 'pgn']; // which say whose a record is; they stand before all that may be in quotes

// Whether a record is of a row, in this stretch of time.
function isWanted(names, row, from, to) {
  const wanted = { ...row, name: row.name.replace(/^-+$/, '') };
  const places = OWN_FIELDS.map(name => [names.indexOf(name), wanted[name]]);
  return record => {
    const fields = record.split(',', names.length), moment = Number(fields[0].replace('.', '')) / 1000;
    return moment >= from && moment <= to && places.every(([place, value]) => fields[place] === value);
  };
}

// The lines of a piece that are wanted, as they are.
function linesOf(piece, wants) {
  const kept = new Uint8Array(piece.length);
  let at = 0, n = 0;
  for (const line of letters(piece).split('\n')) {
    const end = at + line.length + 1;
    if (line && wants(line)) {
      kept.set(piece.subarray(at, end), n);
      n += end - at;
    }
    at = end;
  }
  return kept.subarray(0, n);
}

// The records of a row among those of its parameter, in their order, or the names of their columns.
function recordsIn(bytes, row, from, to) {
  const head = bytes.indexOf(NEWLINE) + 1, parts = [];
  const wants = isWanted(letters(bytes.slice(0, head)).trim().split(','), row, from, to);
  for (let i = head; i < bytes.length;) {
    const end = bytes.indexOf(NEWLINE, Math.min(i + PIECE, bytes.length - 1)) + 1;
    parts.push(linesOf(bytes.slice(i, end), wants));
    i = end;
  }
  return { head: bytes.slice(0, head), parts };
}

// The module makes the records of all that send a row's parameter (SPN).
function recordsOfRow(row, from, to) {
  const spn = new Uint8Array(Uint32Array.of(Number(row.spn)).buffer);
  const all = asked.rows.filter(({ spn }) => spn === row.spn);
  const room = all.reduce((sum, { count, title, group, unit }) => sum + count * (120 + title.length + group.length + unit.length), MEMORY_PAGE);
  return withText('j39_values', spn, 1, room, bytes => recordsIn(bytes, row, from, to));
}

function values({ chosen, from, to }) {
  const all = chosen.map(i => recordsOfRow(asked.rows[i], from, to));
  return new Blob([all[0].head, ...all.flatMap(({ parts }) => parts)], { type: 'text/csv' });
}
