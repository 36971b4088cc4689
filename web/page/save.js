// What is saved as a file.
const stem = () => log.name.replace(/\.[^.]*$/, '');
const field = value => /[",\n]/.test(value) ? `"${String(value).replace(/"/g, '""')}"` : String(value);

function save(blob, name) {
  const link = element('a');
  link.href = URL.createObjectURL(blob);
  link.download = name;
  link.click();
  setTimeout(() => URL.revokeObjectURL(link.href), 60000);
}

function saveTable() {
  const lines = [PARAMETER_COLUMNS.map(({ name }) => name), ...parameters.rows.map(row => PARAMETER_COLUMNS.map(({ value }) => value(row)))];
  save(new Blob([lines.map(cells => cells.map(field).join(',') + '\n').join('')], { type: 'text/csv' }), `${stem()}.csv`);
}

function askValues() {
  const [from, to] = shownTime();
  worker.postMessage({ values: { chosen, from, to } });
}

function saveValues(values) {
  sayRead();
  save(values, `${stem()}-values.csv`);
}

function saveReport(report) {
  sayRead();
  save(report, `${stem()}.report.txt`);
}
