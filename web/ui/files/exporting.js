// @ts-check
/* Exports the project that is open: one HTML file that is this page with the project in it, as `galluspa report` makes one. `galluspa recording-of` reads its
 * recording; beside that is a JSON with all else. */
import { app, branches } from "../../host/app.js";
import { desk, editor, FIRST_SOURCE, sourceFile, sourcesNow } from "../source/desk.js";
import { closeMenus, download, el, notice } from "../../host/elements.js";
import { readItem } from "../../host/records.js";
import { symbolFile } from "../../host/names.js";
import { pins } from "../../host/pins.js";
import { writtenProject } from "../../formats/project.js";
import { Refusal } from "../../host/requests.js";
import { breaks, cursor, watches } from "../../host/shown.js";
import { isSourceName } from "../source/source.js";
import { openSourceId } from "../source/sourceautosave.js";
import { grouped } from "../../formats/texts.js";

/** Saves the project that is open as a page. */
export async function exportProject() {
  notice();
  const { name } = app.work, { bytes, end } = await recorded(), project = await projectNow();
  download(`${name}.html`, new Blob(await exportedPage(name, bytes, writtenProject(project))), "text/html");
  closeMenus();
  notice([end, leftOut()].filter(Boolean).join(" "));
}

/** Says that the source in its tab is not in the file, since the run is not of it; or nothing. */
function leftOut() {
  const isWritten = editor && sourcesNow().some(([, text]) => text.trim() && text !== FIRST_SOURCE);
  return isWritten && app.work.ran?.id !== openSourceId() ? `${desk.file} is not in the file, since this run is not of it.` : "";
}

/** Returns the recording of the run that is open: all of the file while that is replayed, or if it is false and nothing was done since. It says where the recording
 * ends, if that is before the machine's count. */
async function recorded() {
  await app.live.ask("setRun", { on: false });
  const { file, latest } = app;
  if (file?.bytes.length && (latest?.isReplay || (file.verdict?.wrong && !latest?.hasOwn))) return { bytes: file.bytes, end: "" };
  const { bytes, count, full = "there is no room for one more checkpoint", isWhole } = await app.live.ask("recording");
  return { bytes, end: isWhole ? "" : `The exported run ends with its checkpoint at ${grouped(count)}: ${full}.` };
}

/** Returns all of the project but its recording.
 * @returns {Promise<import("../../formats/project.js").Project>} */
async function projectNow() {
  const { work: { name, number, ran } } = app, isOpen = ran?.id === openSourceId(), sources = ran ? (isOpen ? sourcesNow() : ran.sources) : [], named = symbolFile();
  const others = await Promise.all(branches.list.map(async (branch) => {
    const { recording, inputs, count, until = count } = branch.opened && !branch.head ? branch.opened : (await readItem(branch.id)).body;
    return { number: branch.number, parent: branch.parent, end: until, recording, inputs };
  }));
  return {
    name: name.slice(0, 80) || "project", file: isOpen ? sourceFile() : ran?.file ?? "", sources, ran: ran && JSON.stringify(sources) !== JSON.stringify(ran.sources) ? ran.sources : null,
    symbols: named && !isSourceName(named.from) ? named : null, breaks: [...breaks], watches, notes: [...pins], cursor: cursor.at, number, branches: others,
    lesson: isOpen ? desk.lesson : null,
  };
}

const ENTITIES = new Map([["&", "&amp;"], ["<", "&lt;"], [">", "&gt;"], ["'", "&#39;"], ['"', "&#34;"]]);
/** @param {string} text */
const escaped = (text) => text.replace(/[&<>'"]/g, (sign) => ENTITIES.get(sign) ?? sign);

/** Returns bytes as a page unpacks them: compressed, as base64.
 * @param {Bytes} bytes */
async function packed(bytes) {
  const blob = await new Response(new Blob([bytes]).stream().pipeThrough(new CompressionStream("gzip"))).blob(), reader = new FileReader();
  await new Promise((done, failed) => {
    Object.assign(reader, { onload: done, onerror: () => failed(reader.error) });
    reader.readAsDataURL(blob);
  });
  return `${reader.result}`.replace(/^.*,/, "");
}

/** Returns a page with a project, in pieces: this page as it was built, with its policy. The project is before the machine, so that it is there once the page's
 * script runs. Only a page that was built has all that: not that of web/serve.
 * @param {string} name
 * @param {Bytes} recording
 * @param {string} project */
async function exportedPage(name, recording, project) {
  const { machineAsBuilt } = /** @type {{ machineAsBuilt?: () => string }} */ (globalThis), policy = document.querySelector("meta[http-equiv]")?.getAttribute("content") ?? "";
  if (!machineAsBuilt) throw new Refusal("Only the page that web/build makes can save a page.");
  const [run, rest] = await Promise.all([packed(recording), packed(new TextEncoder().encode(project))]);
  return [`<!doctype html>
<html lang="en">
<head>
<meta charset="utf-8">
<meta http-equiv="Content-Security-Policy" content="${escaped(policy)}">
<meta name="viewport" content="width=device-width, initial-scale=1">
<title>${escaped(name)}: Galluspa</title>
<link rel="icon" href="data:,">
<style id="g-style">${el("style").textContent}</style>
</head>
<body>
<script type="text/plain" id="g-recording">`, run, `</script>
<script type="text/plain" id="g-project">`, rest, `</script>
`, machineAsBuilt(), `</body>
</html>
`];
}
