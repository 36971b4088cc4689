// A table of many rows, of which a page is drawn at a time: it is sorted by a column, filtered by words, and walked by arrows.
const ROWS_SHOWN = 200, LONG = 16;

// Numbers by their size, and words by their letters.
function compare(x, y) {
  const [a, b] = [Number(x), Number(y)];
  return x !== '' && y !== '' && !isNaN(a) && !isNaN(b) ? a - b : String(x).localeCompare(String(y));
}

// A long text may stand in several lines.
function rowOf(cells) {
  const row = element('tr');
  for (const [text, kind = ''] of cells) row.append(element('td', text, String(text).length > LONG ? `${kind} long` : kind));
  return row;
}

function headOf(table, cells) {
  const head = element('tr');
  for (const cell of cells) cell.scope = 'col';
  head.append(...cells);
  table.tHead.replaceChildren(head);
}

class Table {
  // A column has a name, the value that it is sorted and filtered by, a kind of its cells, and what they show where that is another text.
  // `tools` may have `before`, the name of a first column and what makes its cell, and `mark`, which is called of each line that is shown.
  constructor(id, columns, tools = {}) {
    Object.assign(this, { at: $(id), columns, tools, rows: [], found: [], page: 0, order: { by: null, falls: false } });
    this.filter = $(`${id}-filter`);
    this.shown = $(`${id}-shown`);
    this.pages = $(`${id}-pages`);
    this.filter.oninput = () => this.find();
    this.at.tBodies[0].onkeydown = event => this.walk(event);
    this.at.tBodies[0].onfocusin = event => this.focusRow(event.target.closest('tr'));
  }

  show(rows) {
    this.rows = rows;
    this.order = { by: null, falls: false };
    this.filter.value = '';
    this.find();
  }

  find() {
    const words = this.filter.value.toLowerCase().split(/\s+/).filter(Boolean);
    const has = text => words.every(word => text.includes(word));
    this.found = this.rows.filter(row => !words.length || has(this.columns.map(({ value, text }) => (text || value)(row)).join(' ').toLowerCase()));
    if (this.order.by !== null) {
      const { value } = this.columns[this.order.by];
      this.found.sort((x, y) => (this.order.falls ? -1 : 1) * compare(value(x), value(y)));
    }
    this.page = 0;
    this.draw();
  }

  sortBy(column) {
    this.order = { by: column, falls: this.order.by === column && !this.order.falls };
    this.find();
    this.at.tHead.querySelectorAll('button')[column].focus();
  }

  draw() {
    this.drawHead();
    const from = this.page * ROWS_SHOWN;
    this.at.tBodies[0].replaceChildren(...this.found.slice(from, from + ROWS_SHOWN).map(row => this.line(row)));
    if (this.at.tBodies[0].rows.length) this.at.tBodies[0].rows[0].tabIndex = 0;
    this.shown.textContent = `${number(this.found.length)} of ${number(this.rows.length)}`;
    this.drawPages();
    this.refresh();
  }

  drawHead() {
    const cells = this.columns.map(({ name, kind }, i) => {
      const cell = element('th', undefined, kind === 'n' ? 'n' : '');
      if (this.order.by === i) cell.setAttribute('aria-sort', this.order.falls ? 'descending' : 'ascending');
      cell.append(button(name, () => this.sortBy(i)));
      return cell;
    });
    headOf(this.at, this.tools.before ? [element('th', this.tools.before.name), ...cells] : cells);
  }

  line(row) {
    const line = rowOf(this.columns.map(({ value, text, kind }) => [(text || value)(row), kind]));
    if (this.tools.before) {
      const cell = element('td');
      cell.append(this.tools.before.make(row));
      line.prepend(cell);
    }
    line.tabIndex = -1;
    line.row = row;
    return line;
  }

  drawPages() {
    const last = Math.max(0, Math.ceil(this.found.length / ROWS_SHOWN) - 1);
    const from = this.page * ROWS_SHOWN;
    const go = (name, page) => {
      const it = button(name, () => this.turn(page, name));
      it.disabled = page < 0 || page > last || page === this.page;
      return it;
    };
    this.pages.hidden = last === 0;
    this.pages.replaceChildren(go('First', 0), go('Before', this.page - 1),
      element('span', `${number(from + 1)} to ${number(Math.min(from + ROWS_SHOWN, this.found.length))}`),
      go('Next', this.page + 1), go('Last', last));
  }

  turn(page, name) {
    this.page = page;
    this.draw();
    this.at.parentElement.scrollTop = 0;
    const buttons = [...this.pages.querySelectorAll('button')];
    (buttons.find(it => it.textContent === name && !it.disabled) || buttons.find(it => !it.disabled)).focus();
  }

  // Lets each line that is shown say once more how it is.
  refresh() {
    if (this.tools.mark) for (const line of this.at.tBodies[0].rows) this.tools.mark(line);
  }

  focusRow(row) {
    for (const line of this.at.tBodies[0].querySelectorAll('tr[tabindex="0"]')) line.tabIndex = -1;
    row.tabIndex = 0;
  }

  walk(event) {
    const line = event.target.closest('tr'), body = this.at.tBodies[0];
    const to = { ArrowDown: line.nextElementSibling, ArrowUp: line.previousElementSibling, Home: body.firstElementChild, End: body.lastElementChild }[event.key];
    if (to) to.focus();
    else if (event.key === ' ' && event.target === line) line.querySelector('input:enabled')?.click();
    else return;
    event.preventDefault();
  }
}
