// Prints what each word of TypeScript and JavaScript files leads to, by one pass of the compiler's
// checker: node checker.js COMPILER GIVEN, where GIVEN is a file with {root, own, files}. Each line is
// what is found of a file, or a symbol, a package's document, or what is to be said.
'use strict';
const fs = require('fs');
const given = JSON.parse(fs.readFileSync(process.argv[3], 'utf8'));

// The files and folders that anything reads or looks for, and those that are listed, by which the answers hold.
const touched = new Set(), listed = new Set();
function keeping(own) {
  return (at, ...more) => {
    if (typeof at === 'string') (own.name === 'readdirSync' ? listed : touched).add(at);
    const found = own(at, ...more);
    if (own.name.startsWith('realpath')) touched.add(found);
    return found;
  };
}
for (const name of ['accessSync', 'existsSync', 'lstatSync', 'openSync', 'readFileSync', 'readdirSync', 'realpathSync', 'statSync']) {
  const own = fs[name];
  fs[name] = keeping(own);
  if (own.native) fs[name].native = keeping(own.native);
}

const ts = require(process.argv[2]);
const { Names, Packages } = require('./names.js');
const { Programs } = require('./programs.js');
const { Symbols } = require('./symbols.js');

let lines = [];
function flush() {
  if (lines.length) fs.writeSync(1, Buffer.from(lines.join('')));  // all of it: a pipe that's waited for
  lines = [];
}
function print(line) {
  lines.push(`${JSON.stringify(line)}\n`);
  if (lines.length > 999) flush();
}
const once = new Set();
const mind = text => { if (!once.has(text)) print({ mind: text }); once.add(text); };
const leaveOut = (what, where) => print({ left: [what, where] });

const packages = new Packages(given.root, given.own);
const programs = new Programs(ts, given.root, given.files, packages, mind);
const ids = new Map(), documents = new Set(), lacking = new Set();
const starts = new WeakMap();
let count = 0;

// The line of an offset and where that begins; the compiler takes more for ends of lines.
function lineAt(file, offset) {
  if (!starts.has(file)) starts.set(file, [0, ...[...file.text.matchAll(/\r\n|\n|\r/g)].map(one => one.index + one[0].length)]);
  const own = starts.get(file);
  let low = 0, high = own.length - 1;
  while (low < high) {
    const middle = (low + high + 1) >> 1;
    if (own[middle] <= offset) low = middle; else high = middle - 1;
  }
  return [low, offset - own[low]];
}

// One program's files.
class Pass {
  constructor(program) {
    this.program = program, this.checker = program.getTypeChecker();
    this.symbols = new Symbols(ts, this.checker), this.known = new Map();
    this.names = new Names(ts, program, this.checker, packages, one => this.symbols.followed(one), one => this.key(one));
  }

  place(file, start, end) {
    return [...lineAt(file, start), ...lineAt(file, end)];
  }

  declared(one) {
    const file = one.getSourceFile();
    return [file.fileName, ...this.place(file, ...this.symbols.span(one))];
  }

  key(one) {
    const [file, line, start] = this.declared(one);
    return ts.isSourceFile(one) ? file : `${file}:${line}:${start}`;
  }

  // The number of a symbol, which is printed once: all that declares it is one symbol. What an
  // earlier program has of it stays. What stands before a member that's assigned, as `process` in
  // `process.env.A = 1`, is there by the compiler's account and declares nothing.
  id(symbol) {
    if (this.known.has(symbol)) return this.known.get(symbol);
    const all = (symbol.declarations || []).filter(one => !ts.isIdentifier(one));
    const signs = all.filter(one => this.symbols.isSignature(one)), rest = all.filter(one => !signs.includes(one));
    const sorted = [...rest, ...signs], keys = sorted.map(one => this.key(one));
    const earlier = keys.find(key => ids.has(key));
    let own = earlier === undefined ? -1 : ids.get(earlier);
    if (own < 0 && sorted.length) {
      own = count++;
      for (const key of keys) ids.set(key, own);
      this.print(own, symbol, sorted);
    }
    this.known.set(symbol, own);
    return own;
  }

  print(own, symbol, declarations) {
    const places = [...new Map(declarations.map(one => [this.key(one), this.declared(one)])).values()];
    const found = declarations.map(one => this.names.of(one)), [of, name] = found.find(([, name]) => name) || found[0];
    let hover = '';
    try {
      hover = this.symbols.hover(symbol);
    } catch (fault) {
      leaveOut(`what is said of a symbol: ${fault.message.split('\n')[0]}`, `${places[0][0]}:${places[0][1] + 1}`);
    }
    for (const one of declarations) this.document(one.getSourceFile().fileName);
    print({ symbol: own, places, name: of && name ? [of.name, of.version, name] : null, hover });
  }

  document(file) {
    if (documents.has(file)) return;
    documents.add(file);
    const of = packages.of(file);
    if (of) print({ document: file, package: [of.name, of.version] });
  }

  // The words of a file, each with the symbols that it stands for.
  file(file) {
    const words = [];
    this.over = [];
    const visit = node => {
      const word = this.symbols.isWord(node) ? node : this.symbols.default(node);
      if (word) this.word(file, word, words);
      ts.forEachChild(node, visit);
      for (const doc of node.jsDoc || []) visit(doc);
    };
    visit(file);
    if (this.program.getSyntacticDiagnostics(file).length) leaveOut('answers of a file that has errors of syntax', file.fileName);
    print({ file: file.fileName, words, over: this.over });
  }

  word(file, node, words) {
    const place = this.place(file, ...this.symbols.inner(node, file));
    if (place[0] !== place[2] || place[1] >= place[3]) return;
    let found = [];
    try {
      const symbols = this.symbols.of(node);
      found = [...new Set(symbols.map(one => this.id(one)).filter(one => one >= 0))];
      this.overridden(node, found);
    } catch (fault) {
      leaveOut(`a word: ${fault.message.split('\n')[0]}`, `${file.fileName}:${place[0] + 1}`);
    }
    if (!found.length && this.symbols.isModule(node) && !/^[./]/.test(node.text)) lacking.add(node.text);
    words.push([place[0], place[1], place[3], found]);
  }

  // What a class and its members implement or override, of each class and interface above it.
  overridden(node, own) {
    const up = node.parent, of = up && up.name === node && up.parent;
    if (!of || !own.length) return;
    if (ts.isClassLike(up)) this.above(up, base => [base.symbol], own[0]);
    else if (ts.isClassLike(of) && ts.isClassElement(up) && !(ts.getCombinedModifierFlags(up) & ts.ModifierFlags.Static))
      this.above(of, base => [this.checker.getPropertyOfType(base, node.text)], own[0]);
  }

  above(declaration, pick, own, seen = new Set()) {
    for (const clause of declaration.heritageClauses || []) for (const node of clause.types) {
      const base = this.checker.getTypeAtLocation(node);
      if (!base.symbol || seen.has(base.symbol)) continue;
      seen.add(base.symbol);
      for (const one of pick(base)) if (one) {
        const id = this.id(one);
        if (id >= 0 && id !== own) this.over.push([id, own]);
      }
      for (const next of base.symbol.declarations || []) this.above(next, pick, own, seen);
    }
  }
}

for (const [program, files] of programs.all()) {
  const pass = new Pass(program);
  for (const file of files) {
    try {
      pass.file(file);
    } catch (fault) {
      leaveOut(`a file: ${fault.message.split('\n')[0]}`, file.fileName);
    }
  }
}
for (const file of programs.left) leaveOut('a file that the compiler doesn\'t take', file);
if (lacking.size) {
  const shown = [...lacking].sort().slice(0, 9).join(', ');
  mind(`${lacking.size} modules aren't installed, and nothing is known of them: ${shown}${lacking.size > 9 ? ', ..' : ''}`);
}
print({ touched: [...touched].sort(), listed: [...listed].sort() });
flush();
