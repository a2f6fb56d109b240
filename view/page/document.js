// What the picture takes from the text of a document: its nodes, of what kind each is and on which line it stands, and the edits.
// The reader knows valid texts alone; whether a text is valid is told by what was printed.
(function (gridlay) {
  'use strict';

  const NODE = /^( *)([^ {}()[\]:;,/]+) +([a-z]+)([^{]*)(?:\{(.*))?$/;

  function withoutComment(line) {
    const at = line.indexOf('#');
    return (at < 0 ? line : line.slice(0, at)).trimEnd();
  }

  /** A node: what its line says, its place in a tree, and what edits declared of it since, in their order. */
  class Node {
    constructor(name, kind, sizes, braces, line, level) {
      this.name = name;
      this.kind = kind;
      this.sizes = sizes;
      /** What stands between the braces of its line. */
      this.braces = braces;
      this.line = line;
      this.level = level;
      this.edits = null;
      this.parent = null;
      this.children = [];
    }

    copy() {
      return new Node(this.name, this.kind, this.sizes, this.braces, this.line, this.level);
    }

    /** All its declarations, from its line and from edits. */
    declared() {
      const written = this.braces.replace(/\}[^}]*$/, '').split(';').filter(it => it.trim());
      return this.edits ? [...written, ...this.edits] : written;
    }
  }

  /** The node that a line declares, with no place in a tree yet; `line` counts from 1. */
  function nodeOf(text, line) {
    const found = NODE.exec(text);
    return found && new Node(found[2], found[3], found[4].trim(), found[5] ?? '', line, found[1].length / 2);
  }

  /** A document as it is written: the viewport, the nodes in their order, and the edits of the script. */
  class Document {
    /** Reads a text, of which `lines` are the lines. */
    constructor(lines) {
      this.lines = lines;
      this.viewport = ['0', '0'];
      this.nodes = [];
      this.edits = [];
      /** How many lines stand before the line `---`, which belongs to neither; all where there is none. */
      this.scriptAt = lines.count;
      let counted = 0;
      for (let index = 0; index < lines.count; index++) {
        const line = lines.line(index);
        if (line === '---' && this.scriptAt === lines.count) {
          this.scriptAt = index;
          continue;
        }
        const text = withoutComment(line);
        if (!text) continue;
        if (index > this.scriptAt) {
          this.edits.push({ line: index + 1, text: text.trimStart() });
        } else if (++counted === 2) {
          this.viewport = text.trim().split(/ +/).slice(1, 3);
        } else if (counted > 2) {
          const node = nodeOf(text, index + 1);
          if (node) this.nodes.push(node);
        }
      }
    }
  }

  gridlay.document = { Document, nodeOf };
})(globalThis.gridlay ??= {});
