// The tree of a document and its edits: which node stands under which.
(function (gridlay) {
  'use strict';

  const { nodeOf } = gridlay.document;

  /** The tree of a document after some of its edits. */
  class Tree {
    constructor(doc) {
      this.viewport = doc.viewport;
      this.named = new Map();
      this.root = null;
      const above = [];
      for (const written of doc.nodes) {
        const node = written.copy();
        above.length = Math.min(above.length, node.level);
        node.parent = above[node.level - 1] ?? null;
        above[node.level] = node;
        if (node.parent) node.parent.children.push(node);
        else this.root ??= node;
        this.named.set(node.name, node);
      }
    }

    /** All nodes in document order. */
    nodes() {
      const found = [];
      const visit = node => {
        found.push(node);
        for (const child of node.children) visit(child);
      };
      if (this.root) visit(this.root);
      return found;
    }

    /** Applies an edit that was not refused. */
    apply({ text: written, line }) {
      const text = written.replace(/ *; *$/, '');
      const [word, first, second, third] = text.split(/ +/);
      const node = this.named.get(first);
      if (word === 'viewport') this.viewport = [first, second];
      else if (!node) return;
      else if (word === 'set') (node.edits ??= []).push(text.replace(/^set +\S+ +/, ''));
      else if (word === 'unset') (node.edits ??= []).push({ unset: second });
      else if (word === 'insert') this.insert(node, Number(second), nodeOf(text.replace(/^insert +\S+ +\S+ +/, ''), line));
      else if (word === 'remove') this.remove(node);
      else if (word === 'move') this.move(node, this.named.get(second), Number(third));
      else if (word === 'content') Object.assign(node, { kind: second, sizes: text.replace(/^content +\S+ +\S+ */, '') });
    }

    insert(parent, index, node) {
      if (!node) return;
      node.parent = parent;
      parent.children.splice(index, 0, node);
      this.named.set(node.name, node);
    }

    remove(node) {
      this.takeOut(node);
      const forget = it => {
        this.named.delete(it.name);
        it.children.forEach(forget);
      };
      forget(node);
    }

    move(node, parent, index) {
      this.takeOut(node);
      node.parent = parent;
      parent.children.splice(index, 0, node);
    }

    takeOut(node) {
      const siblings = node.parent.children;
      siblings.splice(siblings.indexOf(node), 1);
    }
  }

  gridlay.tree = { Tree };
})(globalThis.gridlay ??= {});
