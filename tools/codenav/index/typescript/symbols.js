// The symbols that a word stands for, and where one is declared.
'use strict';

const MOST_ALIASES = 20;

class Symbols {
  constructor(ts, checker) {
    this.ts = ts, this.checker = checker;
  }

  // What an import or an export stands for. Where the package isn't there it's the import itself.
  followed(symbol) {
    for (let count = 0; symbol && symbol.flags & this.ts.SymbolFlags.Alias && count < MOST_ALIASES; count++) {
      const next = this.checker.getAliasedSymbol(symbol);
      if (!next || next === symbol || !next.declarations) break;
      symbol = next;
    }
    return symbol;
  }

  // The symbols of each type of a union.
  roots(symbol) {
    return this.checker.getRootSymbols(symbol).flatMap(one => one === symbol ? [one] : this.roots(one));
  }

  of(word) {
    const found = this.at(word).filter(Boolean).map(one => this.followed(one)).flatMap(one => this.roots(one));
    return [...new Set(found)];
  }

  property(type, word) {
    const found = type && this.checker.getPropertyOfType(type, word.text);
    return found && found.declarations ? found : null;
  }

  // `{a}` stands for two, in a literal and in a pattern; a literal's `a:` for the awaited type's member.
  at(word) {
    const { ts, checker } = this, up = word.parent;
    if (ts.isShorthandPropertyAssignment(up) && up.name === word) {
      const member = this.property(checker.getContextualType(up.parent), word);
      return [checker.getShorthandAssignmentValueSymbol(up), member || checker.getSymbolAtLocation(word)];
    }
    if (ts.isBindingElement(up) && ts.isObjectBindingPattern(up.parent)) {
      const member = () => this.property(checker.getTypeAtLocation(up.parent), word);
      if (up.propertyName === word) return [member() || checker.getSymbolAtLocation(word)];
      if (!up.propertyName && up.name === word) return [checker.getSymbolAtLocation(word), member()];
    }
    if (ts.isPropertyAssignment(up) && up.name === word && ts.isObjectLiteralExpression(up.parent)) {
      const member = this.property(checker.getContextualType(up.parent), word);
      return [member || checker.getSymbolAtLocation(word) || up.symbol];
    }
    if (word.kind === ts.SyntaxKind.DefaultKeyword) return [up.symbol];
    if (ts.isExportSpecifier(up)) return [checker.getExportSpecifierLocalTargetSymbol(up) || checker.getSymbolAtLocation(word)];
    return [checker.getSymbolAtLocation(word)];
  }

  // The start and the end of a declaration's name in its file.
  span(declaration) {
    const { ts } = this, file = declaration.getSourceFile();
    if (ts.isSourceFile(declaration)) return [0, 0];
    const of = ts.isExportAssignment(declaration) && ts.isIdentifier(declaration.expression) ? declaration.expression : ts.getNameOfDeclaration(declaration);
    if (of || this.default(declaration)) return this.inner(of || this.default(declaration), file);
    const word = declaration.getChildren(file).find(one => one.kind > ts.SyntaxKind.LastPunctuation && one.getWidth(file) && !ts.isModifier(one)) || declaration;
    const start = word.getStart(file), length = file.text.slice(start, start + 999).match(/^[$\w]+|^[^]/);
    return [start, start + (length ? length[0].length : 0)];
  }

  // The word `default` of what has no other name.
  default(declaration) {
    const { ts } = this, isOne = one => one.kind === ts.SyntaxKind.DefaultKeyword;
    if (ts.isExportAssignment(declaration)) return ts.isIdentifier(declaration.expression) ? null : declaration.getChildren().find(isOne);
    const can = ts.isFunctionDeclaration(declaration) || ts.isClassDeclaration(declaration);
    return can && !declaration.name ? (ts.getModifiers(declaration) || []).find(isOne) : null;
  }

  // Where a word begins and ends, without quotes.
  inner(word, file) {
    const quotes = this.ts.isStringLiteralLike(word) ? 1 : 0;
    return [word.getStart(file) + quotes, word.getEnd() - quotes];
  }

  isWord(word) {
    const { ts } = this, up = word.parent;
    if (ts.isIdentifier(word) || ts.isPrivateIdentifier(word)) return true;
    if (word.kind === ts.SyntaxKind.ConstructorKeyword || word.kind === ts.SyntaxKind.SuperKeyword) return true;
    return ts.isStringLiteralLike(word) && (this.isModule(word) || up.name === word || (ts.isElementAccessExpression(up) && up.argumentExpression === word));
  }

  // Whether a text names a module.
  isModule(word) {
    const { ts } = this, up = word.parent;
    if (!ts.isStringLiteralLike(word)) return false;
    if (ts.isImportDeclaration(up) || ts.isExportDeclaration(up) || ts.isExternalModuleReference(up)) return true;
    if (ts.isLiteralTypeNode(up) && ts.isImportTypeNode(up.parent)) return true;
    return ts.isCallExpression(up) && up.arguments[0] === word && (up.expression.kind === ts.SyntaxKind.ImportKeyword || (ts.isIdentifier(up.expression) && up.expression.text === 'require'));
  }

  // Whether a declaration says alone that there's a function, which another one is.
  isSignature(declaration) {
    return this.ts.isFunctionLike(declaration) && !declaration.body;
  }

  // What is said of a symbol.
  hover(symbol) {
    const { ts, checker } = this, declaration = symbol.valueDeclaration || symbol.declarations[0];
    const { Class, Interface, TypeAlias, Enum, Function, Module, Value } = ts.SymbolFlags;
    const kinds = [[Class, 'class'], [Interface, 'interface'], [TypeAlias, 'type'], [Enum, 'enum'], [Function, 'function'], [Module, 'module']];
    const [, kind] = kinds.find(([flag]) => symbol.flags & flag) || [0, ''];
    const name = `${kind ? `${kind} ` : ''}${checker.symbolToString(symbol)}`;
    let said = name;
    if (symbol.flags & TypeAlias) {
      said += ` = ${checker.typeToString(checker.getDeclaredTypeOfSymbol(symbol), declaration, ts.TypeFormatFlags.InTypeAlias)}`;
    } else if (symbol.flags & Value && !(symbol.flags & (Class | Interface | Enum | Module)) ) {
      const type = checker.getTypeOfSymbolAtLocation(symbol, declaration), [call] = type.getCallSignatures();
      said += symbol.flags & Function && call ? checker.signatureToString(call, declaration) : `: ${checker.typeToString(type, declaration)}`;
    }
    const text = ts.displayPartsToString(symbol.getDocumentationComment(checker));
    return `\`\`\`typescript\n${said}\n\`\`\`${text ? `\n\n${text}` : ''}`;
  }
}

module.exports = { Symbols };
