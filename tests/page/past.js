/* node past.js PAGE.html FOLDER : tests how the page looks into the past, with its workers run by node, on the programs of a folder
 * that past.py makes. It prints a line for each part, and `recording NAME BASE64` for each recording that the program has to accept.
 * It ends with status 1 at the first thing that is wrong. */
"use strict";

const { main } = require("./workers.js");

main([...require("./looks.js"), ...require("./hits.js"), ...require("./calls.js"), ...require("./aligned.js"), ...require("./takeovers.js")]);
