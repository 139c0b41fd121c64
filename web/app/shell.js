// The command lines that give the page's answers, as a shell takes them.

const PLAIN = /^[A-Za-z0-9_.,:/=+@%-]+$/;

export function shellQuoted(word) {
  return PLAIN.test(word) ? word : `'${word.replaceAll("'", "'\\''")}'`;
}

// A word that ends a here-document: no line of the document is it.
function endingWord(lines) {
  let word = "END";
  while (lines.includes(word)) word += "_";
  return word;
}

// A command whose standard input is a text.
function withInput(command, input) {
  const text = input.endsWith("\n") || input === "" ? input : `${input}\n`;
  const end = endingWord(text.split("\n"));
  return `${command} <<'${end}'\n${text}${end}`;
}

/** The command that makes a file with this text. */
export function fileCommand(name, text) {
  return withInput(`cat > ${shellQuoted(name)}`, text);
}

/** A command of a shell; `from` is the file that is its standard input, or `input` the text. */
export function shellCommand({ program, words, from, input }) {
  const command = [program, ...words].map(shellQuoted).join(" ");
  if (from !== undefined) return `${command} < ${shellQuoted(from)}`;
  return input === undefined ? command : withInput(command, input);
}

/** A name of a file that a program doesn't take for an option. */
export function fileWord(name) {
  const last = name.replaceAll(/[\u0000-\u001f\u007f]/g, "_").split("/").at(-1);
  return last === "" ? "dump.rules" : last.startsWith("-") ? `./${last}` : last;
}
