// The keys of a packet line, what they mean, and which of them a packet carries (iptsim(1), PACKETS).

export const HOOKS = ["INPUT", "FORWARD", "OUTPUT"];
export const PROTOCOL_NAMES = {
  icmp: 1, igmp: 2, tcp: 6, udp: 17, dccp: 33, gre: 47, esp: 50, ah: 51, "ipv6-icmp": 58, icmpv6: 58, ospf: 89, vrrp: 112,
  sctp: 132, udplite: 136,
};
export const PACKET_FLAGS = ["SYN", "ACK", "FIN", "RST", "URG", "PSH"];
export const PACKET_STATES = ["INVALID", "UNTRACKED", "NEW", "RELATED", "ESTABLISHED"];
const WITH_PORTS = [6, 17, 33, 132, 136];

export const PACKET_KEYS = [
  { key: "src", label: "Source", hint: "An address such as 192.0.2.1.", example: "192.0.2.1" },
  { key: "dst", label: "Destination", hint: "An address: the one that the packet has after nat has changed it.", example: "198.51.100.1" },
  { key: "proto", label: "Protocol", hint: "A name such as tcp, or a number of 0 to 255.", example: "tcp" },
  { key: "in", label: "In interface", hint: "Where the packet comes in. Without it the interface has no name.", example: "eth0" },
  { key: "out", label: "Out interface", hint: "Where the packet goes out. Without it the interface has no name.", example: "eth1" },
  { key: "frag", label: "Fragment", hint: "A second or further fragment has no ports, no flags and no type.", example: "0" },
  { key: "sport", label: "Source port", hint: "0 to 65535.", example: "40000" },
  { key: "dport", label: "Destination port", hint: "0 to 65535.", example: "443" },
  { key: "flags", label: "TCP flags", hint: "A new connection has SYN alone.", example: "SYN" },
  { key: "icmp", label: "ICMP type/code", hint: "An echo request is 8/0, a reply 0/0.", example: "8/0" },
  { key: "ct", label: "Connection state", hint: "What connection tracking says of the packet. Without it the packet is INVALID.",
    example: "NEW" },
  { key: "ttl", label: "Time to live", hint: "0 to 255; 64 without it.", example: "64" },
];

// What a packet has that its line doesn't give.
export const NOT_GIVEN = { in: "no name", out: "no name", frag: "0", flags: "NONE", ct: "INVALID", ttl: "64" };

function protocolNumber(text) {
  return /^[0-9]+$/.test(text) ? Number(text) : PROTOCOL_NAMES[text];
}

// The keys of first fragments of a protocol.
function keysOfProtocol(text, isFurther) {
  const number = protocolNumber(text);
  if (isFurther) return [];
  if (WITH_PORTS.includes(number)) return number === 6 ? ["sport", "dport", "flags"] : ["sport", "dport"];
  return number === 1 ? ["icmp"] : [];
}

/** The keys that packets at a hook carry, by what is given of the packet (a Map). */
export function keysCarried(hook, given) {
  const carried = ["src", "dst", "proto", ...(hook === "OUTPUT" ? [] : ["in"]), ...(hook === "INPUT" ? [] : ["out"]), "frag"];
  return [...carried, ...keysOfProtocol(given.get("proto") ?? "", given.get("frag") === "1"), "ct", "ttl"];
}

/** The keys that a packet needs and that aren't given. */
export function keysMissing(given) {
  const needed = keysOfProtocol(given.get("proto") ?? "", given.get("frag") === "1").filter((key) => key !== "flags");
  return ["src", "dst", "proto", ...needed].filter((key) => !given.has(key));
}
