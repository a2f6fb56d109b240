// What is declared of a node's paddings and borders, for edits that are made by dragging: the printed box has both in it.
(function (gridlay) {
  'use strict';

  const SIDES = ['top', 'right', 'bottom', 'left'];
  /** The size of a font where none is declared, in px. */
  const INITIAL = 16;

  /** The parts that a declaration or an unset property sets, as [property, value], value '' where it is unset. */
  function partsOf(declaration) {
    const parts = declaration.unset ? [declaration.unset, ''] : declaration.split(/:(.*)/s);
    const [property, value] = parts.map(it => it.trim());
    const shape = { 'padding': side => `padding-${side}`, 'border-width': side => `border-${side}-width` }[property];
    if (!shape) return [[property, value]];
    const [top, right = top, bottom = top, left = right] = value.split(/ +/);
    return SIDES.map((side, at) => [shape(side), [top, right, bottom, left][at]]);
  }

  function declaredOf(node) {
    return new Map(node.declared().flatMap(partsOf));
  }

  /** The px of a length, where `em` and `rem` have the sizes that are told. */
  function lengthOf(text, em, rem) {
    const found = /^([+-]?[\d.]+)(px|em|rem|)$/.exec(text ?? '');
    return found ? Number(found[1]) * { 'px': 1, '': 1, em, rem }[found[2]] : 0;
  }

  function rootOf(node) {
    return node.parent ? rootOf(node.parent) : node;
  }

  /** The size of a node's font in px; above the root it is the initial one. */
  function fontOf(node) {
    if (!node) return INITIAL;
    const declared = declaredOf(node).get('font-size'), above = fontOf(node.parent);
    if (!declared) return above;
    const root = rootOf(node);
    return lengthOf(declared, above, root === node ? INITIAL : fontOf(root));
  }

  /** What of a box's printed size along an axis, 'width' or 'height', the property of that name does not count. */
  function notCounted(node, axis) {
    const declared = declaredOf(node);
    if (declared.get('box-sizing') === 'border-box') return 0;
    const em = fontOf(node), rem = fontOf(rootOf(node));
    const sides = axis === 'width' ? ['left', 'right'] : ['top', 'bottom'];
    const properties = sides.flatMap(side => [`padding-${side}`, `border-${side}-width`]);
    return properties.reduce((sum, property) => sum + lengthOf(declared.get(property), em, rem), 0);
  }

  gridlay.edges = { notCounted };
})(globalThis.gridlay ??= {});
