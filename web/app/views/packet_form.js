// The form of a packet: a field for each key that its hook and protocol carry, and the packet line. Each follows the other.

import { byId, element, show } from "../dom.js";
import { HOOKS, PACKET_FLAGS, PACKET_KEYS, PACKET_STATES, PROTOCOL_NAMES, keysCarried, keysMissing } from "../packet_keys.js";
import { packetLine, readPacketLine } from "../packet_line.js";

// The lists of names that fields offer.
const LISTS = { proto: "protocol-names", in: "interface-names", out: "interface-names" };

function options(values, selected) {
  return values.map(([value, text]) => element("option", { value, selected: value === selected }, text));
}

function textField({ key, example }, value, change) {
  const helps = { spellcheck: "false", autocomplete: "off", autocapitalize: "off", list: LISTS[key] ?? null };
  return element("input", { id: `key-${key}`, class: "code", value, placeholder: example, ...helps, "aria-describedby": `hint-${key}`,
    oninput: (event) => change(key, event.target.value.trim()) });
}

// The state of the connection, with the two that may stand behind some.
function stateField(value, change) {
  const [state = "", ...more] = value === "" ? [] : value.split(",");
  const choices = [["", "not given: INVALID"], ...PACKET_STATES.flatMap((name) => (["INVALID", "UNTRACKED"].includes(name) ? [[name, name]]
    : [[name, name], ...["SNAT", "DNAT", "SNAT,DNAT"].map((nat) => [`${name},${nat}`, `${name},${nat}`])]))];
  const whole = [state, ...more].join(","), known = choices.some(([name]) => name === whole);
  return element("select", { id: "key-ct", "aria-describedby": "hint-ct", onchange: (event) => change("ct", event.target.value) },
    ...options(known ? choices : [...choices, [whole, whole]], whole));
}

function flagsField(value, change) {
  const set = new Set(value.split(",").filter((flag) => flag !== "" && flag !== "NONE"));
  const take = () => {
    const flags = [...document.querySelectorAll("#key-flags input:checked")].map((box) => box.value);
    change("flags", flags.join(","));
  };
  return element("span", { id: "key-flags", class: "boxes", role: "group", "aria-label": "TCP flags", "aria-describedby": "hint-flags" },
    ...PACKET_FLAGS.map((flag) => element("label", {},
      element("input", { type: "checkbox", value: flag, checked: set.has(flag) || set.has("ALL"), onchange: take }), flag)));
}

function fragmentField(value, change) {
  return element("select", { id: "key-frag", "aria-describedby": "hint-frag", onchange: (event) => change("frag", event.target.value) },
    ...options([["", "whole, or the first fragment"], ["1", "a second or further fragment"]], value === "1" ? "1" : ""));
}

function inputOf(each, given, change) {
  const value = given.get(each.key) ?? "";
  if (each.key === "ct") return stateField(value, change);
  if (each.key === "flags") return flagsField(value, change);
  if (each.key === "frag") return fragmentField(value, change);
  return textField(each, value, change);
}

function fieldNode(each, given, change) {
  const label = each.key === "flags" ? element("span", { class: "label" }) : element("label", { for: `key-${each.key}` });
  label.append(each.label, " ", element("code", { class: "quiet" }, each.key));
  return element("div", { class: "field", "data-key": each.key }, label, inputOf(each, given, change),
    element("p", { class: "hint", id: `hint-${each.key}` }, each.hint));
}

function hookField(hook, change) {
  return element("div", { class: "field", "data-key": "hook" }, element("label", { for: "key-hook" }, "Hook"),
    element("select", { id: "key-hook", "aria-describedby": "hint-hook", onchange: (event) => change(event.target.value) },
      ...options(HOOKS.map((name) => [name, name]), hook)),
    element("p", { class: "hint", id: "hint-hook" }, "INPUT is to this machine, FORWARD through it, OUTPUT from it."));
}

function listNode(id, names) {
  return element("datalist", { id }, ...names.map((name) => element("option", { value: name })));
}

// The packet of the form, which keeps keys that aren't carried now, and who is told of its line.
let formPacket = { hook: "INPUT", given: new Map(), others: [] };
let tell = () => {};

// Only the keys that the packet carries stand in its line.
function carriedPacket() {
  const carried = keysCarried(formPacket.hook, formPacket.given);
  return { ...formPacket, given: new Map([...formPacket.given].filter(([key]) => carried.includes(key))) };
}

// Shows the fields of keys that the packet carries, and says which it needs.
function showCarried() {
  const carried = keysCarried(formPacket.hook, formPacket.given), missing = keysMissing(formPacket.given);
  for (const field of document.querySelectorAll("#packet-fields .field[data-key]")) {
    const { key } = field.dataset;
    field.hidden = key !== "hook" && !carried.includes(key);
    field.classList.toggle("missing", missing.includes(key));
  }
}

function follow() {
  byId("packet-line").value = packetLine(carriedPacket());
  showCarried();
  tell(byId("packet-line").value);
}

function changeKey(key, value) {
  if (value === "") formPacket.given.delete(key);
  else formPacket.given.set(key, value);
  follow();
}

function changeHook(hook) {
  formPacket.hook = hook;
  follow();
}

/** Shows a packet line in the form, which offers these interfaces. `listener` is called with each line that the form makes of it. */
export function showPacket(line, interfaces, listener) {
  formPacket = readPacketLine(line);
  tell = listener;
  if (byId("packet-line").value !== line) byId("packet-line").value = line;
  show(byId("packet-fields"), hookField(formPacket.hook, changeHook),
    ...PACKET_KEYS.map((each) => fieldNode(each, formPacket.given, changeKey)), listNode(LISTS.proto, Object.keys(PROTOCOL_NAMES)),
    listNode(LISTS.in, interfaces));
  showCarried();
}
