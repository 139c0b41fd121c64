// Which rules a packet came to, by the rules that it matched and what these do.

/**
 * Each rule that a packet came to, in turn, with whether it matched.
 *
 * `steps` are the places of the rules that matched, in the order of the walk, and `isByPolicy` says whether the policy decided. What the
 * walk does at a rule that matched is what its target says: the program has decided which rules these are.
 */
export function reachedRules(chains, hook, steps, isByPolicy) {
  const rulesOf = new Map(chains.map((chain) => [chain.name, chain.rules]));
  const found = [], stack = [];
  let chain = hook, next = 0;
  const passTo = (end) => {
    const rules = rulesOf.get(chain) ?? [];
    for (; next < Math.min(end, rules.length); next += 1) found.push({ rule: rules[next], isMatched: false });
  };
  const leave = () => ([chain, next] = stack.pop());
  for (const step of steps) {
    const space = step.lastIndexOf(" "), name = step.slice(0, space), number = Number(step.slice(space + 1));
    while (chain !== name && stack.length > 0) {
      passTo(Infinity);
      leave();
    }
    passTo(number - 1);
    const rule = (rulesOf.get(chain) ?? [])[number - 1];
    if (rule === undefined) return found;
    found.push({ rule, isMatched: true });
    next = number;
    if (rule.target === "RETURN" && stack.length > 0) leave();
    else if (rule.target === "RETURN") return found;
    else if (rulesOf.has(rule.target)) {
      if (!rule.isGoto) stack.push([chain, next]);
      [chain, next] = [rule.target, 0];
    }
  }
  if (!isByPolicy) return found;
  passTo(Infinity);
  while (stack.length > 0) {
    leave();
    passTo(Infinity);
  }
  return found;
}
