// Texts and bytes. Programs take and give bytes; what is no UTF-8 is shown as U+FFFD.

const textEncoder = new TextEncoder();
const textDecoder = new TextDecoder("utf-8", { ignoreBOM: true });

export function bytesOf(text) {
  return textEncoder.encode(text);
}

export function textOf(bytes) {
  return textDecoder.decode(bytes);
}

// "8,192".
export function grouped(number) {
  return number.toLocaleString("en-US");
}

// "1 rule", "2 rules", "8,192 rules".
export function counted(number, one, many = `${one}s`) {
  return `${grouped(number)} ${number === 1 ? one : many}`;
}

// "a", "a and b", "a, b and c".
export function listed(words) {
  return words.length < 2 ? words.join("") : `${words.slice(0, -1).join(", ")} and ${words.at(-1)}`;
}

// The lines of a text, without the newline that ends the last one.
export function linesOf(text) {
  const lines = text.split("\n");
  if (lines.at(-1) === "") lines.pop();
  return lines;
}
