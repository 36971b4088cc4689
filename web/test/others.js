// Prints the lines of candump that the page's worker makes of another tool's log, behind a line with what it is.
'use strict';
const fs = require('fs');
const path = require('path');
const worker = path.join(path.dirname(__dirname), 'worker');
const sources = ['module.js', 'convert.js'].map(name => fs.readFileSync(path.join(worker, name), 'utf8')).join('\n');
const asCandump = new Function(`${sources}\nreturn asCandump;`)();

(async () => {
  const name = process.argv[2];
  const { file, kind } = await asCandump(new File([fs.readFileSync(name)], path.basename(name)));
  process.stdout.write(`${kind}\n${await file.text()}`);
})();
