// The transcript of a session, by its output after each of its lines.

/**
 * The replies to what was sent, in turn; `outputs` are those of the session up to each. A reply is what the output has more than before.
 * What later lines have undone, such as the fault of a restore whose end was still missing, is no reply.
 */
export function repliesOf(outputs) {
  const whole = outputs.at(-1) ?? "";
  let shown = "";
  return outputs.map((output) => {
    if (!output.startsWith(shown) || !whole.startsWith(output)) return "";
    const reply = output.slice(shown.length);
    shown = output;
    return reply;
  });
}
