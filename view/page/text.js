// Texts, their lines, and what the page was made with.
(function (gridlay) {
  'use strict';

  /** So many bytes are made text at once. */
  const PIECE = 32768;

  /** The bytes of a data block: what the script that made the page wrote into it, in base64. */
  function block(id) {
    const element = document.getElementById(id);
    if (!element) return null;
    const packed = atob(element.textContent.trim());
    const bytes = new Uint8Array(packed.length);
    for (let at = 0; at < packed.length; at++) bytes[at] = packed.charCodeAt(at);
    return bytes;
  }

  /** A text with one character for each byte, so that places in bytes are places in the text. */
  function textOfBytes(bytes) {
    const pieces = [];
    for (let at = 0; at < bytes.length; at += PIECE) {
      pieces.push(String.fromCharCode.apply(null, bytes.subarray(at, at + PIECE)));
    }
    return pieces.join('');
  }

  /** A text of UTF-8; what is no UTF-8 becomes the replacement character. */
  function textOfUtf8(bytes) {
    return new TextDecoder('utf-8').decode(bytes);
  }

  /** The lines of a text, without their line feeds: one at the very end begins no line. */
  class Lines {
    constructor(text) {
      this.text = text;
      const starts = [];
      for (let at = 0; at < text.length;) {
        starts.push(at);
        const end = text.indexOf('\n', at);
        at = end < 0 ? text.length : end + 1;
      }
      this.starts = Int32Array.from(starts);
    }

    get count() {
      return this.starts.length;
    }

    /** The line of an index that counts from 0; past the last one the empty text. */
    line(index) {
      if (index >= this.count) return '';
      const start = this.starts[index], end = this.text.indexOf('\n', start);
      return this.text.slice(start, end < 0 ? this.text.length : end);
    }

    /** The index of the line in which a place of the text stands. */
    lineAt(place) {
      let low = 0, high = this.count;
      while (low + 1 < high) {
        const middle = (low + high) >> 1;
        if (this.starts[middle] <= place) low = middle; else high = middle;
      }
      return low;
    }
  }

  /** A piece of text as it can be seen: each control character as its picture. */
  function visible(text) {
    const pictureOf = it => it === '\x7f' ? '\u2421' : String.fromCharCode(0x2400 + it.charCodeAt(0));
    return text.replace(/[\x00-\x1f\x7f]/g, pictureOf);
  }

  /** The same of a text with one character for each byte. */
  function visibleBytes(text) {
    if (!/[\x80-\xff]/.test(text)) return visible(text);
    return visible(textOfUtf8(Uint8Array.from(text, it => it.charCodeAt(0))));
  }

  /** Where the token at a place of a line ends: a mark stands alone, other tokens go up to a space or a mark. */
  function tokenEnd(line, place) {
    if (place >= line.length) return place;
    const found = /^[^ {}()[\]:;,/#]+/.exec(line.slice(place, place + 200));
    return place + (found ? found[0].length : 1);
  }

  /** A new element with a class and a text. */
  function element(kind, name = '', text = '') {
    const made = document.createElement(kind);
    if (name) made.className = name;
    if (text) made.textContent = text;
    return made;
  }

  gridlay.text = { block, textOfBytes, textOfUtf8, Lines, visible, visibleBytes, tokenEnd, element };
})(globalThis.gridlay ??= {});
