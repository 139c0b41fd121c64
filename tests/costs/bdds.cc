// Finds the dead rules of a ruleset with binary decision diagrams: those that match no packet that comes to them, whichever conditions hold.
// tests/costs/bdds.py compiles this program and writes its input, which has lines of words:
//
//   fields NAME BITS ..                   the first line: what is known of a packet, in the order of the variables; a condition is a field of one bit
//   rule CHAIN KIND [TARGET]              the next rule of a chain: a verdict, a return, a jump or goto to the chain TARGET, or none of these
//   match FIELD in|out COUNT FIRST LAST.. what the rule above matches: each of these fields is in one of so many ranges, or in none of them.
//                                         A rule may have several such lines, of which one has to hold
//
// All packets enter INPUT, FORWARD and OUTPUT. It prints a line `CHAIN NUMBER` for each dead rule, and then the processor's seconds on standard error.

#include <bdd.h>

#include <ctime>
#include <iostream>
#include <map>
#include <sstream>
#include <string>
#include <vector>

// The variables of a field, that of the most significant bit first.
struct Field {
  int first, bits;
};

struct Rule {
  std::string kind, target;
  bdd match = bddfalse;
  bool dead = true;
};

struct Ruleset {
  std::map<std::string, Field> fields;
  std::map<std::string, std::vector<Rule>> chains;
};

// The packets of which a field is in a range.
bdd within(const Field &field, unsigned long first, unsigned long last) {
  bdd from = bddtrue, to = bddtrue;
  for (int bit = 0; bit < field.bits; bit++) {
    int variable = field.first + field.bits - 1 - bit;
    bdd one = bdd_ithvar(variable), zero = bdd_nithvar(variable);
    from = first >> bit & 1 ? one & from : one | from;
    to = last >> bit & 1 ? zero | to : zero & to;
  }
  return from & to;
}

void read_fields(std::istream &words, std::map<std::string, Field> &fields) {
  std::string name;
  int variables = 0;
  for (int bits; words >> name >> bits; variables += bits) fields[name] = {variables, bits};
  bdd_setvarnum(variables);
}

bdd read_match(std::istream &words, const std::map<std::string, Field> &fields) {
  bdd all = bddtrue;
  std::string name, side;
  for (int count; words >> name >> side >> count;) {
    bdd some = bddfalse;
    unsigned long first, last;
    while (count-- > 0 && words >> first >> last) some |= within(fields.at(name), first, last);
    all &= side == "in" ? some : !some;
  }
  return all;
}

void read(std::istream &input, Ruleset &ruleset) {
  Rule *rule = nullptr;
  for (std::string line, word, chain; std::getline(input, line);) {
    std::istringstream words(line);
    words >> word;
    if (word == "fields") {
      read_fields(words, ruleset.fields);
    } else if (word == "rule") {
      words >> chain;
      rule = &ruleset.chains[chain].emplace_back();
      words >> rule->kind >> rule->target;
    } else if (word == "match") {
      rule->match |= read_match(words, ruleset.fields);
    }
  }
}

// Sends packets through a chain, and returns those that come back from it, at its end or by a return.
bdd walk(Ruleset &ruleset, const std::string &chain, bdd here) {
  bdd back = bddfalse;
  for (Rule &rule : ruleset.chains[chain]) {
    bdd taken = here & rule.match;
    if (taken == bddfalse) continue;
    rule.dead = false;
    if (rule.kind == "none") continue;
    here -= taken;
    if (rule.kind == "return") back |= taken;
    if (rule.kind == "jump") here |= walk(ruleset, rule.target, taken);
    if (rule.kind == "goto") back |= walk(ruleset, rule.target, taken);
  }
  return here | back;
}

int main() {
  bdd_init(4000000, 400000);
  bdd_setmaxincrease(4000000);
  bdd_autoreorder(BDD_REORDER_NONE);
  bdd_gbc_hook(NULL);
  Ruleset ruleset;
  read(std::cin, ruleset);
  for (const char *chain : {"INPUT", "FORWARD", "OUTPUT"}) walk(ruleset, chain, bddtrue);
  for (const auto &[chain, rules] : ruleset.chains)
    for (size_t place = 0; place < rules.size(); place++)
      if (rules[place].dead) std::cout << chain << ' ' << place + 1 << '\n';
  std::cerr << double(std::clock()) / CLOCKS_PER_SEC << '\n';
}
