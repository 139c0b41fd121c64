// Programs that give no answer: the ruleset or the question is refused, memory is lacking, or the program ends by a fault of its own.

/** A question that a program refuses; `messages` is what it says. */
export class Refusal extends Error {
  constructor(messages) {
    super(messages.trim());
    this.name = "Refusal";
    this.messages = messages;
  }
}

/** A program that ended without an answer, though its question may be a good one; `messages` says what to do. */
export class Failure extends Refusal {
  constructor(messages) {
    super(messages);
    this.name = "Failure";
  }
}

/** A program had no memory left. */
export function memoryFailure(program) {
  return new Failure(`${program} ran out of memory, so there is no answer. A program has at most 4 GB here, and less where the browser `
    + "gives less. Close other tabs and ask again, or run the same command on the command line.");
}

/** A program that the browser ended; `reason` is what the browser says. */
export function faultOf(program, reason) {
  if (/RangeError|out of memory/i.test(reason)) return memoryFailure(program);
  return new Failure(`${program} was ended by the browser before it answered (${reason}), so there is no answer. Ask again. If it ends `
    + "again, run the same command on the command line, and please report it with the ruleset.");
}
