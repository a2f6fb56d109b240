// Which edits make one document of another, where the two differ in a few lines that stay nodes of the same names. The worker
// has this before worker.js. Where it gives edits, the engine reads and judges them: a document that it would refuse has a line
// here that is not plain, or an edit that it refuses.
'use strict';

/** A line of more bytes is refused, wherever it stands. */
const LONGEST = 65536;
/** So many lines may differ. */
const MOST_LINES = 16;
/** So many characters are compared at once. */
const AT_ONCE = 1024;

function before(text, mark) {
  const at = text.indexOf(mark);
  return at < 0 ? text : text.slice(0, at);
}

/** What counts of a line; null where a byte of it, or its length, is refused. */
function countedPart(line) {
  return line.length <= LONGEST && /^[ -~]*$/.test(line) ? before(line, '#').trimEnd() : null;
}

/** The declarations between braces by their names, in their order; null where they are not plain. */
function declaredIn(braces) {
  if (braces && !/^\{[^{}]*\}$/.test(braces)) return null;
  const declared = new Map();
  for (const it of braces.slice(1, -1).split(';').map(part => part.trim()).filter(Boolean)) {
    const name = before(it, ':').trim();
    if (!/^[a-z-]+$/.test(name) || declared.has(name)) return null;
    declared.set(name, it);
  }
  return declared;
}

/** The node of a line; null where it is not plain. */
function plainNode(text) {
  const head = before(text, '{'), declared = declaredIn(text.slice(head.length));
  const found = /^( *)([A-Za-z_][\w-]*) +(grid|flex|leaf|words)(?![^ ])/.exec(head);
  if (!found || !declared) return null;
  const [all, indent, name, kind] = found;
  return { place: indent + name, name, isLeaf: kind === 'leaf' || kind === 'words', content: `${kind} ${head.slice(all.length).trim()}`, declared };
}

/** Properties of different families set nothing of each other; a shorthand is of the family of its parts. */
function familyOf(property) {
  return property.endsWith('gap') ? 'gap' : before(property, '-');
}

function familiesOf({ declared }) {
  const families = new Map();
  for (const [property, it] of declared) {
    const family = familyOf(property);
    if (!families.has(family)) families.set(family, new Map());
    families.get(family).set(property, it);
  }
  return families;
}

/**
 * The edits that make the declarations of a family other ones: the properties that went are unset, and then all are set, since of
 * two that set the same part the later one counts; where none went, from the first other one on.
 */
function editsOfFamily(name, old, now) {
  const gone = [...old.keys()].filter(it => !now.has(it)), had = [...old.values()], has = [...now.values()];
  let same = 0;
  while (!gone.length && same < has.length && had[same] === has[same]) same++;
  return [...gone.map(it => `unset ${name} ${it}`), ...has.slice(same).map(it => `set ${name} ${it}`)];
}

/** The edits that make a node another one; null where they are not plain. */
function editsOfNode(old, now) {
  if (!old || !now || old.place !== now.place) return null;
  const { name } = now, edits = [], none = new Map();
  if (old.content !== now.content) {
    if (!old.isLeaf || !now.isLeaf) return null;
    edits.push(`content ${name} ${now.content}`);
  }
  const had = familiesOf(old), has = familiesOf(now);
  for (const family of new Set([...had.keys(), ...has.keys()])) {
    edits.push(...editsOfFamily(name, had.get(family) ?? none, has.get(family) ?? none));
  }
  return edits;
}

/** How many of the two header lines stand in a text. */
function headersIn(text) {
  let count = 0;
  for (let at = 0; at < text.length && count < 2;) {
    const end = text.indexOf('\n', at);
    if (countedPart(text.slice(at, end < 0 ? text.length : end)) !== '') count++;
    at = end < 0 ? text.length : end + 1;
  }
  return count;
}

/** How many characters, of `most`, two texts have in common from their beginnings on, or `atEnd` up to their ends. */
function common(old, now, most, atEnd) {
  const pieceOf = (text, from, to) => atEnd ? text.slice(text.length - to, text.length - from) : text.slice(from, to);
  let count = 0;
  for (const step of [AT_ONCE, 1]) {
    while (count + step <= most && pieceOf(old, count, count + step) === pieceOf(now, count, count + step)) count += step;
  }
  return count;
}

/** The whole lines in which two texts differ: where they begin, and those of each. */
function otherLines(old, now) {
  const least = Math.min(old.length, now.length), same = common(old, now, least, false);
  const start = same && old.lastIndexOf('\n', same - 1) + 1, last = common(old, now, least - start, true);
  const linesOf = text => {
    const end = text.indexOf('\n', text.length - last);
    return text.slice(start, end < 0 ? text.length : end).split('\n').map(countedPart).filter(it => it !== '');
  };
  return { start, old: linesOf(old), now: linesOf(now) };
}

/** The edits that make a document that is read, `old`, another one, in their order; null where there are no plain ones. */
function editsBetween(old, now) {
  const other = otherLines(old, now), count = other.now.length, edits = [];
  if (count !== other.old.length || count > MOST_LINES || other.now.includes(null)) return null;
  const headers = headersIn(old.slice(0, other.start));
  for (const [at, line] of other.now.entries()) {
    if (line === other.old[at]) continue;
    const made = headers + at > 1 ? editsOfNode(plainNode(other.old[at]), plainNode(line))
      : headers + at === 1 && /^ *viewport /.test(line) ? [line.trim()] : null;
    if (!made) return null;
    edits.push(...made);
  }
  return edits;
}
