// The page: its views, and the programs in a Worker.

import { byId } from "./dom.js";
import { areProgramsSupported, cancelPrograms, runProgram } from "./programs.js";
import { showAddressed, watchAddress } from "./router.js";
import { startChange } from "./views/change.js";
import { startPacket } from "./views/packet.js";
import { startRuleset } from "./views/ruleset.js";
import { startSession } from "./views/session.js";
import { startStart } from "./views/start.js";
import { during, watchWork } from "./work.js";

// For the browser's console, and for tests.
globalThis.iptsimPage = { runProgram, cancelPrograms };

watchWork();
startStart();
startRuleset();
startPacket();
startChange();
startSession();
watchAddress();
showAddressed();

during("Starting", async () => {
  byId("unsupported").hidden = await areProgramsSupported();
});
