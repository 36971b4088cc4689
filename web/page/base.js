// What all parts of the page use.
'use strict';
const $ = id => document.getElementById(id);
const number = n => n.toLocaleString('en');
const count = (n, word) => `${number(n)} ${word}${n === 1 ? '' : 's'}`;

function say(text, isFault) {
  $('status').textContent = text;
  $('status').classList.toggle('fault', Boolean(isFault));
}

// Text is never read as HTML.
function element(name, text, kind) {
  const it = document.createElement(name);
  if (text !== undefined) it.textContent = text;
  if (kind) it.className = kind;
  return it;
}

function button(text, act) {
  const it = element('button', text);
  it.type = 'button';
  it.onclick = act;
  return it;
}
