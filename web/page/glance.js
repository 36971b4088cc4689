// The first screen: what this is, what is wrong now and what was, who fell silent, which values drop out.
const SILENT = 5; // seconds at the log's end in which who talks is heard (own)
const KEY_FACTS = [['237', 'VIN'], ['586', 'make'], ['587', 'model'], ['588', 'serial number'], ['247', 'engine hours'], ['917', 'distance'], ['245', 'distance']];
const LAMPS = { malfunction: '\u25CF', red: '\u25A0', amber: '\u25B2', protect: '\u25C6' }; // shapes, for who doesn't tell their colours

let functionNames = new Map(), addressNames = new Map(), makerNames = new Map();
let glance = { rows: [], codes: null, nodes: [] };

// A table of names has lines of a number and its name.
const namesOf = id => new Map($(id).textContent.split('\n').filter(Boolean).map(line => [Number(line.split(' ', 1)[0]), line.slice(line.indexOf(' ') + 1)]));

// Who has an address: by the function in its NAME, or else by what the address is preferred for.
function boxOf(address) {
  const held = glance.nodes.find(node => node.address === address && node.name);
  const place = parseInt(address, 16), { function: number } = held?.fields || {};
  const name = held ? number < 128 && functionNames.get(number) : addressNames.get(place);
  return `${address}${name ? ` ${name}` : ''}`;
}

// ---- the codes ----------------------------------------------------------------------------------

// The news are told message by message: all codes of each that tells others than the one before it, or none. So what the last one
// of an address tells is active at the end, since the first of those behind which it was told without a break.
function standingOf(lines) {
  const active = new Map(), before = new Map(), ended = [];
  for (const message of messagesOf(lines)) {
    const { address, state, stamp } = message[0];
    const told = new Map(message.filter(({ spn }) => spn !== 'none').map(code => [`${code.spn} ${code.parameter} ${code.fmi}`, code]));
    if (state === 'previous') before.set(address, told);
    if (state !== 'active') continue;
    const stood = active.get(address)?.codes || new Map();
    for (const [key, { since, code }] of stood) if (!told.has(key)) ended.push({ code, since, until: stamp });
    const codes = new Map([...told].map(([key, code]) => [key, { code, since: stood.get(key)?.since ?? stamp }]));
    active.set(address, { lamps: message[0].lamps, codes });
  }
  return { active, before, ended };
}

function messagesOf(lines) {
  const messages = [];
  let last = '';
  for (const line of lines) {
    const key = `${line.stamp} ${line.address} ${line.state}`;
    if (key !== last) messages.push([]);
    messages.at(-1).push(line);
    last = key;
  }
  return messages;
}

const wordsOfCode = ({ spn, parameter, fmi, meaning }) => `${parameter || `SPN ${spn}`}: ${meaning} (${parameter && spn !== '-' ? `SPN ${spn}, ` : ''}FMI ${fmi})`;

function wordsOfLamps(lamps) {
  const lit = lamps.split(',').map(lamp => [LAMPS[lamp.replace('*', '')], lamp]).filter(([shape]) => shape);
  return lit.map(([shape, lamp]) => `${shape} ${lamp.replace('*', ' flashes')}`).join(', ');
}

// ---- what is shown ------------------------------------------------------------------------------

function listOf(title, entries, none) {
  const part = element('section', undefined, 'card');
  part.append(element('h3', title));
  if (entries.length) {
    const list = element('ul');
    list.append(...entries.map(entry => typeof entry === 'string' ? element('li', entry) : entry));
    part.append(list);
  } else {
    part.append(element('p', none, 'soft'));
  }
  return part;
}

function factsCard() {
  const facts = KEY_FACTS.flatMap(([spn, name]) => glance.rows.filter(row => row.spn === spn && !isWord(row.last)).map(row => ({ name, row })));
  const seen = new Set();
  const told = facts.filter(({ name, row }) => !seen.has(name + row.address) && seen.add(name + row.address));
  return listOf('What this is', told.map(({ name, row }) => `${name} ${bareText(row.last)}${row.unit ? ` ${row.unit}` : ''} (${boxOf(row.address)})`), 'Nothing in this log tells it.');
}

const isWord = value => ['error', 'indicator', 'reserved', ''].includes(value);
const bareText = value => value.replace(/^"(.*)"$/, '$1');

function nowCard({ active }) {
  const told = [...active].filter(([, { codes }]) => codes.size).map(([address, { lamps, codes }]) => {
    const entry = element('li', `${boxOf(address)}${wordsOfLamps(lamps) ? `: ${wordsOfLamps(lamps)}` : ''}`), list = element('ul');
    list.append(...[...codes.values()].map(({ code, since }) => element('li', `${wordsOfCode(code)}, since ${clock(since * 1000)}`)));
    entry.append(list);
    return entry;
  });
  const part = listOf('What is wrong now', told, 'No code is active at the end of the log.');
  part.classList.toggle('wrong', told.length > 0);
  return part;
}

function beforeCard({ before, ended }) {
  const told = [
    ...ended.map(({ code, since, until }) => `${boxOf(code.address)}: ${wordsOfCode(code)}, from ${clock(since * 1000)} to ${clock(until * 1000)}`),
    ...[...before].flatMap(([address, codes]) => [...codes.values()].map(code => `${boxOf(address)}: ${wordsOfCode(code)}, before the log`)),
  ];
  return listOf('What was wrong', told, 'No code ended in this log, and none is told of before it.');
}

function silentCard() {
  const heard = glance.nodes.filter(node => node.heard).map(node => ({ node, at: Number(node.heard.slice(1, -1)) }));
  const end = Math.max(...heard.map(({ at }) => at));
  const silent = heard.filter(({ at }) => end - at > SILENT).map(({ node, at }) => `${boxOf(node.address)}: last heard ${clock(at * 1000)}, ${(end - at).toFixed(1)} s before the end`);
  const between = heard.filter(({ node }) => node.longest).map(({ node }) => `${boxOf(node.address)}: ${Number(node.longest).toFixed(1)} s from ${clock(node.since * 1000)} on`);
  return listOf('Who fell silent', [...silent, ...between], `Nobody who talked was silent for ${SILENT} seconds.`);
}

function errorsCard() {
  const rows = glance.rows.filter(row => row.errors).sort((x, y) => y.errors - x.errors);
  return listOf('Which values drop out', rows.map(row => `${nameOf(row)} of ${boxOf(row.address)}: ${count(row.errors, 'error')} of ${count(row.count, 'value')}`), 'No value says error.');
}

// Draws what is known so far; the codes and the controllers come behind the values.
function drawGlance(news = {}) {
  Object.assign(glance, news);
  const codes = standingOf(glance.codes || []);
  $('glance').replaceChildren(factsCard(), ...glance.codes ? [nowCard(codes), beforeCard(codes)] : [], ...glance.nodes.length ? [silentCard()] : [], errorsCard());
  drawBands();
}
