// By what names others know what a package of npm has: its entry, `:`, what that exports, the
// members of this, and `()` for what a call gives. They're found by walking from the entries, so a
// package's source and what is built of it have the same ones.
'use strict';
const fs = require('fs'), path = require('path');

const ENDS = ['.ts', '.tsx', '.mts', '.cts', '.d.ts', '.d.mts', '.d.cts', '.js', '.jsx', '.mjs', '.cjs'];
const STEM_ENDS = ['', ...ENDS, '/index.ts', '/index.tsx', '/index.d.ts', '/index.js'];
const MOST_DEPTH = 6;

// The package's own name for that of its types.
const plain = name => name.replace(/^@types\/(?:([^/]+)__)?/, (_, scope) => scope ? `@${scope}/` : '');

class Packages {
  constructor(root, own) {
    this.root = root, this.own = own, this.known = new Map();
  }

  // The package of a file by the nearest package.json above it; null where none has a name.
  of(file) {
    const passed = [];
    let found = null;
    for (let at = path.dirname(file); ; at = path.dirname(at)) {
      if (this.known.has(at)) { found = this.known.get(at); break; }
      passed.push(at);
      found = this.read(at);
      if (found || at === this.root || at === path.dirname(at)) break;
    }
    for (const at of passed) this.known.set(at, found);
    return found;
  }

  read(folder) {
    const own = folder === this.root ? this.own : null;
    let manifest = {};
    try {
      const text = fs.readFileSync(path.join(folder, 'package.json'), 'utf8');
      manifest = Object(JSON.parse(text.replace(/^\uFEFF/, '')));
    } catch { if (!own) return null; }
    const name = own ? own.name : manifest.name, version = own ? own.version : manifest.version;
    if (typeof name !== 'string' || typeof version !== 'string' || !name || !version) return null;
    return { name: plain(name), version, folder, manifest };
  }
}

// The files that a package is entered by, each with the path that's written behind its name.
function entries(of) {
  const found = [];
  const add = (sub, target, depth) => {
    if (typeof target === 'string') found.push([sub, target]);
    else if (target && depth < 9)
      for (const [key, one] of Object.entries(target))
        add(key.startsWith('.') ? key.slice(1).replace(/^\//, '') : sub, one, depth + 1);
  };
  const { types, typings, exports, module, main, bin } = of.manifest;
  for (const one of [types || typings, exports, module, typeof main === 'string' ? main : 'index.js']) add('', one, 0);
  return { shown: found, run: typeof bin === 'string' ? [bin] : Object.values(Object(bin)).filter(b => typeof b === 'string') };
}

// Where the file of an entry may be: there, or where the source is that it's built of.
function stems(of, target, options) {
  const stem = path.resolve(of.folder, target).replace(/(\.d)?\.[cm]?[jt]sx?$/, '');
  const out = options.outDir && path.resolve(options.outDir);
  if (!out || !stem.startsWith(out + '/')) return [stem];
  const inside = path.relative(out, stem), from = options.rootDir ? path.resolve(options.rootDir) : of.folder;
  return [stem, path.join(from, inside), path.join(of.folder, 'src', inside)];
}

// What is on the disk of a package's entries.
function entryFiles(of, options) {
  const { shown, run } = entries(of);
  const targets = [...shown.map(([, target]) => target), ...run];
  return targets.flatMap(target => stems(of, target, options)).flatMap(stem => STEM_ENDS.map(end => stem + end))
    .filter(file => ENDS.some(end => file.endsWith(end)) && fs.existsSync(file));
}

// The names of a package's symbols in a program, by the places of their declarations.
class Names {
  constructor(ts, program, checker, packages, followed, keyOf) {
    Object.assign(this, { ts, program, checker, packages, followed, keyOf });
    this.found = new Map(), this.shown = new Set(), this.later = [];
  }

  // The name of what is declared, and its package.
  of(declaration) {
    const own = this.packages.of(declaration.getSourceFile().fileName);
    if (!own) return [null, null];
    if (!this.shown.has(own)) {
      this.shown.add(own);
      this.show(own);
    }
    return [own, this.found.get(this.keyOf(declaration)) || null];
  }

  show(own) {
    const { ts, checker } = this;
    for (const [sub, target] of entries(own).shown) {
      for (const stem of stems(own, target, this.program.getCompilerOptions())) {
        for (const end of STEM_ENDS) {
          const file = this.program.getSourceFile(stem + end);
          const module = file && (checker.getSymbolAtLocation(file) || file.symbol);  // of CommonJS it's at the file alone
          if (!module) continue;
          if (!this.found.has(this.keyOf(file))) this.found.set(this.keyOf(file), `${sub}:`);
          for (const one of checker.getExportsAndPropertiesOfModule(module)) {
            const name = one.escapedName === 'export=' ? 'default' : ts.unescapeLeadingUnderscores(one.escapedName);
            this.reach(this.followed(one), [`${sub}:${name}`], own);
          }
        }
      }
    }
    for (const next of this.later) next();  // which grows
    this.later = [];
  }

  // Names a symbol, its members, and those of what it is or gives when it's called.
  reach(symbol, names, own) {
    const { ts, checker } = this;
    if (!symbol || names.length > MOST_DEPTH) return;
    let isNew = false;
    for (const one of symbol.declarations || []) {
      if (ts.isSourceFile(one) || this.found.has(this.keyOf(one)) || this.packages.of(one.getSourceFile().fileName) !== own) continue;
      this.found.set(this.keyOf(one), names.join('.'));
      isNew = true;
    }
    if (!isNew) return;
    const { TypeParameter, Prototype, Class } = ts.SymbolFlags;
    for (const table of [symbol.exports, symbol.members]) if (table) table.forEach(member => {
      if (!(member.flags & (TypeParameter | Prototype)))
        this.reach(this.followed(member), [...names, ts.unescapeLeadingUnderscores(member.escapedName)], own);
    });
    if (symbol.valueDeclaration && !(symbol.flags & Class)) this.later.push(() => this.reachTypes(symbol, names, own));
  }

  // Names the members of what a symbol is or gives when it's called, behind all that has a name of its own.
  reachTypes(symbol, names, own) {
    const { ts, checker } = this, { Class, ObjectLiteral, TypeLiteral, Interface } = ts.SymbolFlags;
    const type = checker.getTypeOfSymbolAtLocation(symbol, symbol.valueDeclaration);
    const given = type.getCallSignatures().slice(0, 1).map(call => ['()', call.getReturnType()]);
    for (const [more, of] of [['', type], ...given]) {
      const isNamed = of.symbol && of.symbol.flags & (ObjectLiteral | TypeLiteral | Interface | Class);
      if (!isNamed && !of.isIntersection()) continue;
      const last = names[names.length - 1] + more;
      for (const member of of.getProperties()) this.reach(member, [...names.slice(0, -1), last, member.name], own);
    }
  }
}

module.exports = { Names, Packages, entryFiles };
