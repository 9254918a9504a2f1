// The programs that files of TypeScript and JavaScript are of: those of the manifests, each with its
// options, before what is left. What a test adds to a global isn't seen by the package's own files.
'use strict';
const fs = require('fs'), path = require('path');
const { entryFiles } = require('./names.js');

const MANIFESTS = ['tsconfig.json', 'jsconfig.json'];
const NO_FILES = [18002, 18003];

class Programs {
  constructor(ts, root, files, packages, mind) {
    Object.assign(this, { ts, root, files, packages, mind });
    this.left = new Set(files), this.parsed = new Map(), this.globals = [];
  }

  // The manifests that are nearest above a file, and those that they refer to.
  manifests() {
    const found = new Set(), folders = new Map();
    const nearest = folder => {
      if (folders.has(folder)) return folders.get(folder);
      const own = MANIFESTS.map(name => path.join(folder, name)).find(one => fs.existsSync(one));
      const up = own || (folder === this.root || folder === path.dirname(folder) ? null : nearest(path.dirname(folder)));
      folders.set(folder, up);
      return up;
    };
    for (const file of this.files) {
      const one = nearest(path.dirname(file));
      if (one) found.add(one);
    }
    for (const one of found) {  // which grows
      for (const other of this.parse(one).projectReferences || []) {
        const at = this.ts.resolveProjectReferencePath(other);
        if (at.startsWith(this.root + '/') && fs.existsSync(at)) found.add(at);
      }
    }
    const depth = one => one.split('/').length;
    return [...found].sort((a, b) => depth(a) - depth(b) || (a < b ? -1 : 1));
  }

  parse(manifest) {
    const { ts } = this;
    if (!this.parsed.has(manifest)) {
      const { config, error } = ts.readConfigFile(manifest, ts.sys.readFile);
      const parsed = ts.parseJsonConfigFileContent(config || {}, ts.sys, path.dirname(manifest), {}, manifest);
      for (const one of [...(error ? [error] : []), ...parsed.errors])
        if (!NO_FILES.includes(one.code)) this.mind(`${manifest}: ${ts.flattenDiagnosticMessageText(one.messageText, ' ')}`);
      this.parsed.set(manifest, parsed);
    }
    return this.parsed.get(manifest);
  }

  options(given) {
    const { ts } = this;
    const own = {
      target: ts.ScriptTarget.ES2020, moduleResolution: ts.ModuleResolutionKind.NodeJs, maxNodeModuleJsDepth: 2, allowSyntheticDefaultImports: true,
      ...given, allowJs: true, noEmit: true, skipLibCheck: true, preserveSymlinks: false,
    };
    for (const name of ['composite', 'incremental', 'tsBuildInfoFile', 'declaration', 'declarationMap', 'emitDeclarationOnly', 'plugins']) delete own[name];
    return own;
  }

  // Each program with the files that are of it first.
  *all() {
    const manifests = this.manifests();
    for (const one of manifests) {
      const { fileNames, options } = this.parse(one);
      yield* this.made(fileNames, options);
      this.globals.push(...fileNames.filter(file => file.endsWith('.d.ts')));
    }
    const top = manifests.length ? this.parse(manifests[0]).options : {}, own = this.packages.of(path.join(this.root, 'x'));
    if (!manifests.length && own) yield* this.made(entryFiles(own, {}), top);
    yield* this.made([...new Set([...this.globals, ...this.left])], top);
  }

  *made(files, options) {
    if (!files.some(file => this.left.has(file))) return;
    const own = this.options(options);
    const program = this.ts.createProgram(files, own, this.ts.createCompilerHost(own, true));
    const found = program.getSourceFiles().filter(file => this.left.has(file.fileName));
    for (const file of found) this.left.delete(file.fileName);
    yield [program, found];
  }
}

module.exports = { Programs };
