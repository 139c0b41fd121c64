// The words of a line, as the programs take them: blanks and tabs separate words, and quotes stand round a whole word.

const BLANK = /[ \t]/;

// A word in quotes that begins at a place: its end and its value. Null where the quotes aren't closed, or don't end the word.
function quotedWord(line, start) {
  let value = "", at = start + 1;
  while (at < line.length && line[at] !== '"') {
    if (line[at] === "\\") at += 1;
    value += line[at] ?? "";
    at += 1;
  }
  const end = at + 1;
  return at >= line.length || (end < line.length && !BLANK.test(line[end])) ? null : { start, end, value };
}

function plainWord(line, start) {
  let end = start;
  while (end < line.length && !BLANK.test(line[end])) end += 1;
  const value = line.slice(start, end);
  return value.includes('"') ? null : { start, end, value };
}

/** The words of a line with the places where they stand; null where its quotes can't be read. */
export function wordsOf(line) {
  const words = [];
  let at = 0;
  while (at < line.length) {
    if (BLANK.test(line[at])) {
      at += 1;
      continue;
    }
    const word = line[at] === '"' ? quotedWord(line, at) : plainWord(line, at);
    if (word === null) return null;
    words.push(word);
    at = word.end;
  }
  return words;
}

/** The words between blanks, whatever quotes they have. */
export function roughWordsOf(line) {
  return [...line.matchAll(/[^ \t]+/g)].map((found) => ({ start: found.index, end: found.index + found[0].length, value: found[0] }));
}
