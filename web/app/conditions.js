// Conditions that rules have beside their listing, and answers to them, as iptaudit prints them.

/** The condition as --when takes it, with its place where it has one. */
export function conditionName({ condition, chain, number, nth }) {
  const at = number !== undefined ? ` at ${chain} ${number}` : chain !== undefined ? ` in ${chain}` : "";
  return `${condition}${at}${nth !== undefined ? ` (${nth})` : ""}`;
}

// An answer: the condition, after `not` where it doesn't hold.
function answerText(answer) {
  return `${answer.holds ? "" : "not "}${conditionName(answer)}`;
}

export function answersText(answers) {
  return answers.map(answerText).join(" and ");
}

/** The words of --when for what is fixed, a Map from conditions to whether they hold. */
export function whenWords(fixed) {
  return [...fixed].flatMap(([condition, holds]) => ["--when", holds ? condition : `! ${condition}`]);
}

// The names of conditions of places: by the rule that asks (`at`), and by which of its text in its chain it is (`nth`).
function placeNames(chains) {
  return chains.flatMap((chain) => {
    const counts = new Map();
    return chain.rules.flatMap((rule) => rule.needs.filter((need) => need.number !== undefined)).map((need) => {
      const nth = (counts.get(need.condition) ?? 0) + 1;
      counts.set(need.condition, nth);
      return { at: conditionName(need), nth: conditionName({ condition: need.condition, chain: chain.name, nth: nth > 1 ? nth : undefined }) };
    });
  });
}

/** What is fixed in a ruleset of these chains, as a comparison with another takes it: by which of its text in its chain a condition is. */
export function fixedInChains(fixed, chains) {
  const names = placeNames(chains), places = new Set(names.map(({ at }) => at));
  const everywhere = [...fixed].filter(([name]) => !places.has(name));
  return new Map([...everywhere, ...names.filter(({ at }) => fixed.has(at)).map(({ at, nth }) => [nth, fixed.get(at)])]);
}

/** The same in a ruleset of other chains, by its rules, without what it doesn't ask; `fixed` is what fixedInChains gives. */
export function fixedAtRules(fixed, chains) {
  const asked = new Set(chains.flatMap((chain) => chain.rules.flatMap((rule) => rule.needs.map((need) => need.condition))));
  const everywhere = [...fixed].filter(([name]) => asked.has(name));
  return new Map([...everywhere, ...placeNames(chains).filter(({ nth }) => fixed.has(nth)).map(({ at, nth }) => [at, fixed.get(nth)])]);
}

/** The conditions that rules ask, by their texts, each with the places that it has, and the rules that ask it. */
export function conditionsOf(chains) {
  const found = new Map();
  for (const chain of chains) {
    for (const rule of chain.rules) {
      for (const need of rule.needs) {
        if (!found.has(need.condition)) found.set(need.condition, { condition: need.condition, places: new Map(), rules: [] });
        const each = found.get(need.condition);
        if (!each.rules.includes(rule.place)) each.rules.push(rule.place);
        if (need.number !== undefined) each.places.set(conditionName(need), `${need.chain} ${need.number}`);
      }
    }
  }
  return [...found.values()];
}

/** Fixes a condition, or opens it (`holds` is null). One that is fixed everywhere is not also fixed at a place. */
export function withAnswer(fixed, condition, places, holds) {
  const next = new Map(fixed);
  for (const place of places) next.delete(place);
  if (holds === null) next.delete(condition);
  else next.set(condition, holds);
  return next;
}
