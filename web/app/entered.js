// Which chains a packet enters whose walk depends on conditions, and which of their rules it doesn't match.

/**
 * The chains that a packet enters at a hook, in the order of the listing; `matched` has the places of the rules that it matches under some
 * answers.
 */
export function enteredChains(chains, hook, matched) {
  const entered = new Set([hook]);
  for (const { rules } of chains) {
    for (const rule of rules) if (matched.has(rule.place) && rule.target !== null) entered.add(rule.target);
  }
  return chains.filter((chain) => entered.has(chain.name));
}

// A rule that is appended, with its counters where the dump has them.
const APPENDED = /^[ \t]*(?:\[[0-9]+:[0-9]+\][ \t]*)?(?:-A|--append)[ \t]+([^ \t"]+)/;
const OTHER_COMMAND = /^[ \t]*-/;

/**
 * A dump with a rule before each of these places that every packet matches which comes there, and goes on: its text, and where each
 * rule stands then (`moved`), and the rule before it (`probes`), by their places. Null where a dump changes its rules as it goes.
 */
export function probedDump(lines, places) {
  const made = [], moved = new Map(), probes = new Map(), counts = new Map(), all = new Map();
  let isFilter = false;
  for (const line of lines) {
    if (/^[ \t]*\*/.test(line)) isFilter = line.trim() === "*filter";
    const chain = isFilter ? APPENDED.exec(line)?.[1] : undefined;
    if (isFilter && chain === undefined && OTHER_COMMAND.test(line)) return null;
    if (chain !== undefined) {
      const next = (name, map) => map.set(name, (map.get(name) ?? 0) + 1).get(name);
      const place = `${chain} ${next(chain, all)}`;
      if (places.has(place)) {
        made.push(`-A ${chain}`);
        probes.set(place, `${chain} ${next(chain, counts)}`);
      }
      moved.set(place, `${chain} ${next(chain, counts)}`);
    }
    made.push(line);
  }
  return { text: `${made.join("\n")}\n`, moved, probes };
}

/** What is fixed, in a dump whose rules have moved. */
export function fixedMoved(fixed, moved) {
  return new Map([...fixed].map(([name, holds]) => {
    const found = /^(.*) at (\S+ [0-9]+)$/.exec(name);
    return [found !== null && moved.has(found[2]) ? `${found[1]} at ${moved.get(found[2])}` : name, holds];
  }));
}
