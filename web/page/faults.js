// The fault codes, as they became news.
const FAULT_COLUMNS = [
  { name: 'time', value: fault => fault.stamp, text: fault => clock(fault.stamp * 1000) }, { name: 'address', value: fault => fault.address },
  { name: 'NAME', value: fault => fault.name, kind: 'code' }, { name: 'state', value: fault => fault.state },
  { name: 'SPN', value: fault => fault.spn, text: fault => fault.spn === '-' ? fault.parameter : `${fault.spn} ${fault.parameter}` },
  { name: 'FMI', value: fault => fault.fmi, text: fault => `${fault.fmi} ${fault.meaning}` }, { name: 'count', value: fault => fault.count, kind: 'n' },
  { name: 'lamps', value: fault => fault.lamps },
];

let faults = null; // the table

// A line is `(STAMP) AA NAME STATE SPN FMI COUNT PARAMETER: MEANING`, with `-` for the SPN where the code is of an older form,
// `.. none -`, or `.. all -` where codes are cleared. What has no name of its own is called `SPN` and its number.
function faultOf(line) {
  const [stamp, address, name, state, spn, ...rest] = line.split(' ');
  const fault = { stamp: Number(stamp.slice(1, -1)), address, name, state, spn, fmi: '', count: '', lamps: '-', parameter: '', meaning: '' };
  if (rest.length < 2) return fault;
  const words = rest.slice(2).join(' '), cut = words.lastIndexOf(': ');
  const parameter = words.slice(0, cut);
  return { ...fault, fmi: rest[0], count: rest[1], parameter: parameter === `SPN ${spn}` ? '' : parameter, meaning: words.slice(cut + 2) };
}

// Before the lines of a message stands `(STAMP) AA NAME lamps LAMPS`, if they aren't all off.
function faultsOf(lines) {
  let lit = {};
  return lines.map(faultOf).filter(fault => {
    const isLights = fault.state === 'lamps', isSame = fault.stamp === lit.stamp && fault.address === lit.address;
    if (isLights) lit = { ...fault, lamps: fault.spn };
    else if (isSame) fault.lamps = lit.lamps;
    return !isLights;
  });
}

async function showFaults(blob) {
  const of = log;
  const lines = (await blob.text()).split('\n').filter(Boolean);
  if (log !== of) return;
  log.faults = blob;
  const all = faultsOf(lines);
  $('faults-section').hidden = all.every(({ spn }) => spn === 'none');
  faults.show(all);
  drawGlance({ codes: all });
}
