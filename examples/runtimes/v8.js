// node --expose-gc --allow-natives-syntax --min-semi-space-size=64 --compact-on-every-full-gc v8.js FOLDER DEPTH > FILE
// writes the heap below `judged` before and after collections of V8, and with errors in it.
//
// A file has lines of objects by name, and a name is the number in which the walk found the object. Slots are prototypes,
// own properties, and the entries of maps. Strings and numbers are data. V8 shows no address to a program: %DebugPrint
// writes one to standard output, which has to be a file. So the objects of a sample are asked whether they moved. No
// snapshot is taken, since that runs full collections first; a large young generation keeps collections out of a walk.
'use strict';
const fs = require('fs');
const [folder, depth] = [process.argv[2], Number(process.argv[3])];

const isObject = (value) => (typeof value === 'object' && value !== null) || typeof value === 'function';
const escaped = (text) => text.replace(/[^!-~]|\\/g, (letter) => `\\u${letter.charCodeAt(0).toString(16).padStart(4, '0')}`);
const textOf = (text) => `"${escaped(text)}"`;

function dataOf(value) {
  if (Number.isSafeInteger(value) && !Object.is(value, -0)) return String(value);
  return textOf(`${typeof value}:${Object.is(value, -0) ? '-0' : String(value)}`);
}

// The names of the slots, the values in them, and more data words.
function parts(object) {
  const keys = Reflect.ownKeys(object);
  const values = [Reflect.getPrototypeOf(object)];
  for (const key of keys) {
    const property = Reflect.getOwnPropertyDescriptor(object, key);
    values.push(...('value' in property ? [property.value] : [property.get, property.set]));
  }
  if (object instanceof Map) for (const [key, value] of object) values.push(key, value);
  const own = object instanceof Node || object instanceof Judged;
  const kind = own ? object.constructor.name : Object.prototype.toString.call(object).slice(8, -1);
  return [kind, own ? keys : ['[]'], values, Array.isArray(object) ? [] : keys.map(String)];
}

// Writes the heap.
function write(name) {
  const numbers = new Map([[judged, 1]]);
  const queue = [judged];
  const lines = ['graph', 'root 1 as judged'];
  const types = new Map();
  const numberOf = (object) => {
    if (!numbers.has(object)) {
      numbers.set(object, numbers.size + 1);
      queue.push(object);
    }
    return numbers.get(object);
  };
  for (const object of queue) {
    const [kind, names, values, keys] = parts(object);
    const slots = values.map((value) => (isObject(value) ? numberOf(value) : '-'));
    const words = [textOf(kind), textOf(keys.join()), ...values.map((value) => (isObject(value) ? 0 : dataOf(value)))];
    lines.push(`object ${numbers.get(object)} ${1 + slots.length + words.length}/${slots.length} ${[...slots, ...words].join(' ')}`);
    const all = ['prototype', ...names].join(' ');
    types.set(kind, `type ${escaped(kind)} slots ${all} data class keys ${all}\nlabel ${textOf(kind)} ${escaped(kind)}\n`);
  }
  fs.writeFileSync(`${folder}/${name}.txt`, lines.join('\n') + '\n');
  fs.writeFileSync(`${folder}/names`, [...types.values()].join(''));
}

const output = fs.readlinkSync('/proc/self/fd/1');
const print = new Function('object', '%DebugPrint(object)');

function addressOf(object) {
  const from = fs.statSync(output).size;
  print(object);
  return BigInt(/0x[0-9a-f]+/.exec(fs.readFileSync(output, 'utf8').slice(from))[0]) - 1n;
}

// The heap that is judged.
class Node { constructor(key) { [this.key, this.left, this.right, this.name, this.weight] = [key, null, null, `node ${key}`, key / 3]; } }
class Judged {
  constructor(root, nodes, byName) {
    [this.root, this.nodes, this.byName, this.big, this.self] = [root, nodes, byName, 3n ** 200n, this];
  }
}
const nodes = [];
function tree(levels, key) {
  const node = new Node(key);
  nodes.push(node);
  if (levels > 1) [node.left, node.right] = [tree(levels - 1, 2 * key), tree(levels - 1, 2 * key + 1)];
  return node;
}
const judged = new Judged(tree(depth, 1), nodes, new Map(nodes.map((node) => [node.name, node])));

const sample = nodes.slice(0, 200);
const garbage = () => { for (let i = 0; i < 100000; i++) [i, `garbage ${i}`].reverse(); };
write('before');
console.log('\nbefore');
for (const [name, collect] of [['minor', () => gc({ type: 'minor' })], ['again_minor', () => gc({ type: 'minor' })], ['full', () => gc()]]) {
  garbage();
  const places = sample.map(addressOf);
  collect();
  const moved = sample.filter((node, i) => addressOf(node) !== places[i]).length;
  write(name);
  console.log(`\ncollection ${name} ${moved} moved`);
}

// Errors in the memory of the process. A Node's fields follow its shape, its properties and its elements.
const memory = fs.openSync('/proc/self/mem', 'r+');
const word = Buffer.alloc(8);
const get = (at) => (fs.readSync(memory, word, 0, 8, Number(at)), word.readBigUInt64LE());
const put = (at, value) => (word.writeBigUInt64LE(value), fs.writeSync(memory, word, 0, 8, Number(at)));
const place = (node, field) => addressOf(node) + 24n + 8n * BigInt(field);
function plant(name, node, field, wrong, found) {
  const right = get(place(node, field));
  put(place(node, field), wrong);
  write(name);
  put(place(node, field), right);
  console.log(`\nplanted ${name} ${found}`);
}
write('last');
const [node, other] = [judged.root.left, judged.root.right];
if (get(place(node, 0)) !== BigInt(node.key) << 32n) throw new Error('this V8 lays out its objects otherwise');
plant('wrong', node, 2, get(place(other, 1)), 'split judged.root.left.right Node');
plant('torn', node, 0, get(place(node, 0)) ^ (0x5500n << 32n), 'data judged.root.left Node key');
write('again');
console.log('\nagain');
