// Several files are one log, in the order of their first stamps, each with a newline at its end.
const FIRST_STAMP = /^\((\d+\.\d+)\) /m;

const bytesIn = async (file, from, to) => new Uint8Array(await file.slice(from, to).arrayBuffer());

async function partOf(file) {
  const { file: lines, kind } = await asCandump(file);
  const [, stamp] = FIRST_STAMP.exec(letters(await bytesIn(lines, 0, FRONT))) || [];
  const [last] = await bytesIn(lines, -1);
  return { kind, from: stamp ? Number(stamp) : Number.MAX_VALUE, parts: last === NEWLINE ? [lines] : [lines, '\n'] };
}

// The log of some files, one of which isn't empty, and what they were turned from, where they were.
async function asOneLog(files) {
  if (files.length === 1) return asCandump(files[0]);
  const parts = [];
  for (const file of files.filter(({ size }) => size)) parts.push(await partOf(file));
  parts.sort((one, other) => one.from - other.from);
  const kinds = new Set(parts.map(({ kind }) => kind).filter(Boolean));
  return { file: new File(parts.flatMap(part => part.parts), 'log'), kind: [...kinds].join(', ') };
}
