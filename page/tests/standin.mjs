// A page whose module's place is taken by the program of this tree.
import { mkdtempSync, readFileSync, rmSync, writeFileSync } from "node:fs";
import { tmpdir } from "node:os";
import { join } from "node:path";
import { pathToFileURL } from "node:url";
import { callProgram, page, read, serve } from "./tools.mjs";

// The address of a page, as it is or with the stand-in's code where the worker's has the module; and how it is put away.
export async function openable(made, isStandin) {
  if (!isStandin) return { url: pathToFileURL(made).href, close: () => {} };
  const room = mkdtempSync(join(tmpdir(), "page-check-"));
  const server = await serve((name, script, words) => callProgram(name, script, words || undefined));
  const address = `http://127.0.0.1:${server.address().port}`;
  const code = read(page, "standin.js").replaceAll("@@server@@", address);
  const text = readFileSync(made, "utf8").replace(read(page, "module.js"), () => code).replace("default-src 'none'", `default-src 'none'; connect-src ${address}`);
  const file = join(room, "index.html");
  writeFileSync(file, text);
  const close = () => {
    server.close();
    rmSync(room, { recursive: true, force: true });
  };
  return { url: pathToFileURL(file).href, close };
}
