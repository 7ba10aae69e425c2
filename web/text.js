// Programs as text: their words, their colours, and where a statement ends.
"use strict";

const WORDS = ("skip print fault async finish if else while main proc array var split as at parts by rescue mut read int byte "
  + "and or not len true false").split(" ");
const TOKENS = /(\/\/.*)|([A-Za-z_][A-Za-z0-9_]*)|([0-9]+)|([^\sA-Za-z0-9_]+)/g;

const escaped = text => String(text).replace(/[&<>"]/g, c => ({ "&": "&amp;", "<": "&lt;", ">": "&gt;", '"': "&quot;" })[c]);

/** A line in HTML, with its words, numbers and comments marked. */
function coloured(line) {
  let html = "", at = 0;
  for (const found of line.matchAll(TOKENS)) {
    const [all, comment, word, number] = found;
    html += escaped(line.slice(at, found.index));
    if (comment) html += `<i>${escaped(all)}</i>`;
    else if (word && WORDS.includes(word)) html += `<b>${all}</b>`;
    else if (number) html += `<u>${all}</u>`;
    else html += escaped(all);
    at = found.index + all.length;
  }
  return html + escaped(line.slice(at));
}

/** The names that a program has, and the words of the language. */
function namesIn(text) {
  const names = new Set(WORDS);
  for (const found of text.replace(/\/\/.*/g, "").matchAll(/[A-Za-z_][A-Za-z0-9_]*/g)) names.add(found[0]);
  return [...names];
}

/** The offset of a position, whose line and column count from 1. A column counts characters, not units of UTF-16. */
function offsetOf(text, line, column) {
  const lines = text.split("\n");
  let at = 0;
  for (let i = 0; i < line - 1 && i < lines.length; i++) at += lines[i].length + 1;
  return at + [...(lines[line - 1] ?? "")].slice(0, column - 1).join("").length;
}

/** The offset behind the statement that starts here: behind its `;`, or behind its last block. */
function endOf(text, from) {
  let depth = 0, blocks = 0;
  for (let i = from; i < text.length; i++) {
    if (text.startsWith("//", i)) {
      const end = text.indexOf("\n", i);
      i = end < 0 ? text.length : end;
    } else if (text[i] === "{") depth++;
    else if (text[i] === "}") {
      depth--;
      if (depth < 0) return i;
      if (depth === 0) {
        blocks = i + 1;
        if (!/^\s*(else|rescue)\b/.test(text.slice(blocks))) return blocks;
      }
    } else if (text[i] === ";" && depth === 0) return i + 1;
  }
  return text.length;
}

/** The first line of the statement that starts here, without what follows its `{`. */
function headOf(text, line, column) {
  const from = offsetOf(text, line, column), end = text.indexOf("\n", from);
  const head = text.slice(from, Math.min(end < 0 ? text.length : end, endOf(text, from))).replace(/\/\/.*/, "").trim();
  return head.replace(/\{.*$/, "{ .. }");
}
