/* Reads symbol files as the page does. It takes lines of JSON, each with a file in base64, addresses and numbers; and prints for each what the page makes of it:
 * names and lines of sources, or the mistake. esbuild bundles it for node. */
import readline from "readline";
import { sourceText } from "../../web/formats/shownnames.js";
import { Mistaken, readSymbols } from "../../web/formats/symbolreader.js";

/** Returns what the page makes of a file. */
async function madeOf({ file, addresses, values }) {
  try {
    const symbols = await readSymbols(new Uint8Array(Buffer.from(file, "base64")), () => {});
    return {
      names: symbols.size, texts: addresses.map((address) => symbols.text(address)), values: values.map((value) => symbols.value(value)),
      lines: addresses.map((address) => (symbols.lineAt(address) ? sourceText(symbols.lineAt(address)) : "")),
    };
  } catch (error) {
    if (!(error instanceof Mistaken)) throw error;
    return { line: error.line, mistake: error.message };
  }
}

for await (const line of readline.createInterface({ input: process.stdin })) console.log(JSON.stringify(await madeOf(JSON.parse(line))));
