// graphql-js's parser, for many texts at once: each stands on standard input as a word, its length, and its bytes. A line of JSON comes for each:
// null if it is no UTF-8, else {cards}, {offset, message} where it is refused, or {crash}. Offsets are made those of the bytes.
//
// A card is seven words here, the last two being the innermost type's name. `node graphql.js version` prints the version instead.
'use strict';
const fs = require('fs');
const { isUtf8 } = require('buffer');
const { GraphQLError, parse, version } = require('graphql');

const HEADINGS = {
  DirectiveDefinition: 3, SchemaDefinition: 4, ScalarTypeDefinition: 5, ObjectTypeDefinition: 6, InterfaceTypeDefinition: 7, UnionTypeDefinition: 8,
  EnumTypeDefinition: 9, InputObjectTypeDefinition: 10, SchemaExtension: 11, ScalarTypeExtension: 12, ObjectTypeExtension: 13, InterfaceTypeExtension: 14,
  UnionTypeExtension: 15, EnumTypeExtension: 16, InputObjectTypeExtension: 17,
};
const FIELDS = { ObjectType: 22, InterfaceType: 22, InputObjectType: 25 };
const ROOTS = { query: 26, mutation: 27, subscription: 28 };

// The offset in bytes of each unit of a string, and of its end.
function places(text) {
  const made = new Uint32Array(text.length + 1);
  let at = 0;
  for (let i = 0; i < text.length; i++) {
    made[i] = at;
    const unit = text.charCodeAt(i);
    // A pair of surrogates has four bytes, two for each.
    at += unit < 0x80 ? 1 : unit < 0x800 || (unit >= 0xd800 && unit < 0xe000) ? 2 : 3;
  }
  made[text.length] = at;
  return made;
}

function innermost(type) {
  while (type.type) type = type.type;
  return type.name;
}

function cardsOf(document, at) {
  const cards = [];
  const span = (node) => (node ? [at[node.loc.start], at[node.loc.end] - at[node.loc.start]] : [0, 0]);
  const card = (kind, item, name, type) => cards.push([kind, ...span(item), ...span(name), ...span(type)]);
  for (const item of document.definitions) {
    const kind = HEADINGS[item.kind];
    if (!kind) continue;
    card(kind, item, item.name);
    if (kind === 3) continue;
    for (const name of item.interfaces || []) card(21, name, name);
    for (const use of item.directives || []) card(20, use, use.name);
    for (const field of item.fields || []) card(FIELDS[item.kind.replace(/(Definition|Extension)$/, '')], field, field.name, innermost(field.type));
    for (const member of item.types || []) card(23, member, member);
    for (const value of item.values || []) card(24, value, value.name);
    for (const root of item.operationTypes || []) card(ROOTS[root.operation], root, root.type);
  }
  return cards;
}

function told(bytes) {
  if (!isUtf8(bytes)) return null;
  const text = bytes.toString('utf8');
  const at = places(text);
  try {
    return { cards: cardsOf(parse(text), at) };
  } catch (error) {
    if (!(error instanceof GraphQLError)) return { crash: String(error) };
    return { offset: at[Math.min(error.positions[0], text.length)], message: error.message };
  }
}

function main() {
  if (process.argv[2] === 'version') {
    console.log(version);
    return;
  }
  const input = fs.readFileSync(0);
  const lines = [];
  for (let at = 0; at < input.length;) {
    const length = input.readUInt32LE(at);
    lines.push(JSON.stringify(told(input.subarray(at + 4, at + 4 + length))));
    at += 4 + length;
  }
  process.stdout.write(lines.map((line) => line + '\n').join(''));
}

main();
