// Faults of programs (iptsim(1), FAULTS; iptaudit(1), DIAGNOSTICS): what each means, and what to do.

const MEANINGS = {
  C1: "There is no -L, -Z, -v, -w, or -S in a restore.",
  C2: "Give each command its own line.",
  C3: "A command has its number of words.",
  C4: "Leave the line out: -t names another table than filter.",
  P1: "Write names in full, values as separate words, and -m before its options.",
  P2: "Add what belongs at the end.",
  P3: "Write ports and protocols as decimal numbers, and one full address an option.",
  P4: "Leave one out, or repeat -m; multiport and ttl have one option each.",
  P5: "This option isn't inverted.",
  P6: "Put the protocol before the option, such as -p tcp, not inverted.",
  P7: "iptsim lacks this match. iptaudit reads many of them as conditions.",
  P8: "Move some matches to a chain that the rule jumps to.",
  P9: "Leave out -j or -g.",
  P10: "Shorten the comment or the log prefix.",
  P11: "Put the option after -j with its target.",
  P12: "Give the match an option, or leave it out.",
  F1: "Take the hooks INPUT, FORWARD and OUTPUT, and the keys of the form.",
  F2: "Every packet needs src, dst and proto; and the ports or the type that its protocol needs.",
  F3: "Correct the value, or leave a second one out.",
  F4: "Leave the key out: such packets lack it.",
  S1: "A line begins with iptables, iptables-save, iptables-restore, packet or lines. Lines of a dump are for a restore.",
  S2: "Give each option once, then << and, without a blank, the word that ends the restore.",
  S3: "Add the line that ends the restore.",
  T1: "Make the chain first, with -N or a chain line.",
  T2: "Take another name, or leave the line out.",
  T3: "Take 1 to 28 visible letters without \", not with - or ! first, and no name of a target.",
  T4: "List the chain with -S: it has no such number.",
  T5: "Compare with -S: no rule has this listing.",
  T6: "Flush the chain first, with -F.",
  T7: "First delete the rules that name the chain.",
  T8: "A built-in chain can't be deleted or renamed.",
  T9: "Put a rule last instead: only built-in chains have a policy.",
  T10: "Break the loop, even if no packet reaches it.",
  T11: "The name is neither a user chain nor a target. Make the chain first.",
  T12: "Put the rules into a user chain.",
  T13: "Leave out -o in INPUT, and -i in OUTPUT.",
  T14: "Spread the 8,192 rules of this chain over several.",
  T15: "Delete some of the 1,024 user chains.",
  T16: "Write ACCEPT or DROP.",
  R1: "Look for a missing *filter or COMMIT.",
  R2: "A chain line is :CHAIN POLICY, perhaps with [PACKETS:BYTES].",
  R3: "Leave one of the chain lines out.",
  R4: "Add the line COMMIT, or remove carriage returns: is the file complete?",
  R5: "Quote whole words, with a backslash before \" and \\ inside.",
  R6: "Shorten the line to 10,240 bytes.",
  M0: "There was no memory for it: it changed nothing.",
  D1: "iptaudit reads no such option here: write its name in full, or look for what stands before it.",
  D2: "Add the value of the option.",
  D3: "iptaudit reads no such match. It can be taken as a condition, which may hold or not.",
  D5: "This option isn't inverted.",
  D6: "Append these rules instead.",
  D7: "Rename the chain.",
};

// What to do about a word of an option, or about a match, in place of the sentence above.
const PORT_OPTIONS = ["--sport", "--source-port", "--dport", "--destination-port", "--sports", "--source-ports", "--dports",
  "--destination-ports", "--ports"];
const ADVICE = [
  { code: "P3", options: PORT_OPTIONS, text: "A port has to be a number: `getent services NAME` prints that of a name." },
  { code: "P3", options: ["-p", "--protocol"],
    text: "Few protocols are known by name: `getent protocols NAME` prints the number of another." },
  { code: "P3", options: ["-s", "--source", "--src", "-d", "--destination", "--dst"],
    text: "An address has to be a.b.c.d or a.b.c.d/n: write a rule for each address of a list, and the address of a name." },
  { code: "P7", words: ["limit", "hashlimit", "recent", "connlimit", "quota", "statistic"],
    text: "A stateful match: its result depends on earlier packets. iptaudit reads it as a condition." },
  { code: "C1", words: ["iptables", "iptables-save", "iptables-restore", "packet", "lines"],
    text: "A line of a dump begins with its command, such as -A." },
  { code: "T1", text: "There is no such chain: make it with a line `:NAME - [0:0]` above." },
  { code: "T11", text: "Neither a chain nor a target that is known: make a chain with a line `:NAME - [0:0]` above." },
];

/** What a fault means and what to do, by its code. */
export function meaningOf(code) {
  return MEANINGS[code] ?? "";
}

/** What to do about a line of a dump, by the fault's code, and where they are known the option and the word at fault. */
export function adviceOn(code, option, word) {
  const found = ADVICE.find((each) => each.code === code && (!each.options || each.options.includes(option))
    && (!each.words || each.words.includes(word)));
  return found?.text ?? meaningOf(code);
}
