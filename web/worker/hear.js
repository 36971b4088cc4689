// A worker reads one log, so that the page doesn't freeze. It is told {module}, {files, bus, table} and {rest} once, and besides
// what the page asks for: {look: {chosen, view}, ticket}, {values: {chosen, from, to}}, {curve, columns} or {report}.
let turn = Promise.resolve(); // what is asked is done one after another

async function begin(bytes) {
  compiled = await WebAssembly.compile(await inflated(bytes).arrayBuffer());
  postMessage({ ready: tableRows(tableOf(null)).size });
}

let spoke = 0;
function tellProgress(done, all) {
  const now = performance.now();
  if (all && done < all && now - spoke < 100) return;
  spoke = now;
  postMessage({ progress: { done, all } });
}

async function hear(data) {
  if (data.module) return begin(data.module);
  if (data.files) return readLog(data, tellProgress, postMessage);
  await layLog(tellProgress);
  if (data.rest) readRest(postMessage);
  else if (data.look) postMessage({ view: viewOf(data.look), ticket: data.ticket });
  else if (data.columns) postMessage({ curve: data.curve, columns: columnsOf(data.curve, data.columns) });
  else if (data.values) postMessage({ values: values(data.values) });
  else if (data.report) postMessage({ report: report(tellProgress) });
}

function sayFault(fault) {
  const words = fault instanceof RangeError ? 'this browser gives no more memory' : fault && fault.message || fault;
  postMessage({ fault: String(words) });
}

onmessage = ({ data }) => {
  turn = turn.then(() => hear(data)).catch(sayFault);
};
