// How long graphql-js's parser takes for a text: node parse.js FILE TIMES. Prints nanoseconds a call, the middle one and the shortest, with locations
// (which make what cards say) and without them. The text is a string already: decoding it is not counted.
'use strict';
const fs = require('fs');
const { parse, version } = require('graphql');

function measure(title, text, options, times) {
  for (let i = 0; i < 50; i++) parse(text, options);
  const each = [];
  for (let i = 0; i < times; i++) {
    const start = process.hrtime.bigint();
    parse(text, options);
    each.push(Number(process.hrtime.bigint() - start));
  }
  each.sort((a, b) => a - b);
  console.log(`${title} ${each[times >> 1]} ${each[0]}`);
}

const [, , file, times] = process.argv;
const text = fs.readFileSync(file, 'utf8');
measure('js', text, {}, Number(times));
measure('js-without-locations', text, { noLocation: true }, Number(times));
console.log(`version ${version}`);
