// Enrols a password, and lets in whoever knows it: node login.js, once pikhsen.node is made of node.c
const { randomBytes } = require('node:crypto');
const { begin } = require('./pikhsen.node');

// The text to store for a new account.
async function enrol(password) {
  const text = password && await begin(true, Buffer.from(password), randomBytes(16));
  if (typeof text !== 'string' || !text) throw new Error(`no password, or pikhsen.h: status ${text}`);
  return text;
}

async function answer(text, password) {
  switch (await begin(false, Buffer.from(password), Buffer.from(text))) {
    case 0: return 'welcome';
    case 16: return 'not you';
    case 7: case 8: return 'set a new password'; // the text asks for more
    default: return 'try again later';
  }
}

async function main() {
  const text = await enrol('correct horse');
  console.log(`${text.slice(0, 30)}..`);
  console.log(await answer(text, 'correct horse'));
  console.log(await answer(text, 'battery staple'));
}

main();
