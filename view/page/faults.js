// What each fault of a document or an edit means.
(function (gridlay) {
  'use strict';

  const MEANINGS = {
    'bad-byte': 'This byte is no printable ASCII character. Tabs, carriage returns and letters with accents are not read.',
    'line-too-long': 'The line has more than 65,536 bytes.',
    'bad-header': 'The first line is "gridlay 1" or "gridlay 2", the second "viewport W H", such as "viewport 640 480".',
    'bad-indent': 'A node stands two spaces deeper than its parent, which stands above it; the first node is not indented.',
    'bad-name': 'A name stands here: a letter or _, then letters, digits, - and _, at most 58 bytes.',
    'duplicate-name': 'A node of this name is there already.',
    'unknown-kind': 'The kind of a node is grid, flex, leaf W H or words LINE SPACE w1 w2 ..; content takes a leaf or words.',
    'unknown-property': 'No property has this name.',
    'bad-value': 'No such value is taken here; or a ":" or "}" is missing, or text follows the end.',
    'duplicate-property': 'The same property stands twice in these braces.',
    'unsupported': 'CSS has this, gridlay does not. Lengths in em and rem want "gridlay 2" in the first line.',
    'too-deep': 'A node stands on level 64 at most.',
    'too-many-nodes': 'There are more nodes, or more children of a node, than this version allows.',
    'leaf-has-children': 'A leaf has no children.',
    'second-root': 'Only the first node stands without indentation: all others stand below it.',
    'no-root': 'The document has no node.',
    'unknown-edit': 'No edit begins with this word.',
    'unknown-name': 'No node has this name.',
    'root': 'The root cannot be removed or moved.',
    'cycle': 'A node cannot stand below itself.',
    'bad-index': 'The parent has fewer children than this index.',
    'nothing-to-undo': 'Fewer edits than this have been made and not undone.',
    'nothing-to-redo': 'Fewer edits than this have been undone.',
  };

  /** What a fault means, in a sentence or two. */
  function meaning(fault) {
    return MEANINGS[fault] ?? 'The text is refused here.';
  }

  gridlay.faults = { meaning, names: Object.keys(MEANINGS) };
})(globalThis.gridlay ??= {});
