// Pictures of the page, for docs/PAGE.md: pictures.mjs BROWSER PAGE FOLDER [STANDIN].
import { writeFileSync } from "node:fs";
import { join } from "node:path";
import { Browser } from "./browser.mjs";
import { smaller } from "./png.mjs";
import { openable } from "./standin.mjs";
import { examples, read } from "./tools.mjs";

const [program, made, folder, standin] = process.argv.slice(2);
const { url, close } = await openable(made, Boolean(standin));
const browser = new Browser(program);

const settle = (tab) => tab.until("!document.getElementById('look').matches('[aria-busy=true]') && !isDrawing");

async function take(name, { script, turn = 0, whys = false, scroll, orders = false, replayed = null, ...how }) {
  const tab = await browser.open(url, how);
  await tab.until("run && !isDrawing");
  if (script) await tab.ask(`document.getElementById('script').value = ${JSON.stringify(script)}; document.getElementById('script').dispatchEvent(new Event('input')); start(${turn})`);
  await settle(tab);
  if (turn) await tab.ask(`choose(${turn})`);
  await settle(tab);
  if (whys) await tab.ask("document.querySelector('[data-why]').click()");
  if (orders) {
    await tab.ask("document.getElementById('orders-start').click()");
    await tab.until("document.getElementById('orders').getAttribute('aria-busy') === 'false'");
  }
  if (replayed) {
    await tab.ask(`document.querySelectorAll("[data-replay]")[${replayed.number}].click()`);
    await tab.until("run?.order && !isDrawing");
    await settle(tab);
    await tab.ask(`choose(${replayed.turn})`);
    await settle(tab);
  }
  if (scroll) await tab.ask(`document.getElementById(${JSON.stringify(scroll)}).scrollIntoView()`);
  writeFileSync(join(folder, `page_${name}.png`), smaller(await tab.picture()));
  await tab.close();
}

const example = (name) => read(examples, `${name}.json`);
try {
  await take("start", { width: 1440, height: 960 });
  await take("run", { script: example("server_of_three"), turn: 20, width: 1440, height: 1000 });
  await take("step", { script: example("dining_philosophers"), turn: 22, whys: true, scroll: "chosen", width: 1440, height: 1060 });
  await take("error", { script: example("crossed_lists").replace('["write",0,0,7]', '["write",0,7]'), width: 1280, height: 760 });
  const text = (name) => read(examples, "litmus", `${name}.lwkt`);
  await take("text", { script: text("14_a_sum"), turn: 5, width: 1280, height: 800 });
  await take("text_error", { script: text("14_a_sum").replace("get accounts", "get acounts").replace("rel accounts", "rle accounts"), width: 1280, height: 760 });
  await take("outcomes", { script: example("crossed_lists"), orders: true, scroll: "orders", width: 1280, height: 760 });
  await take("stuck", { script: text("23_calls_that_wait_for_each_other"), orders: true, scroll: "orders", width: 390, height: 844 });
  await take("replay", { script: example("crossed_lists"), orders: true, replayed: { number: 1, turn: 6 }, scroll: "look", width: 1440, height: 1000 });
  await take("record", { script: example("mailbox_in_a_record"), turn: 11, scroll: "chosen", width: 1440, height: 960 });
  await take("urgent", { script: text("29_an_urgent_note_first"), turn: 5, scroll: "state", width: 390, height: 844 });
  await take("phone", { script: example("server_waits_without_its_token"), turn: 9, scroll: "look", width: 390, height: 844 });
  await take("dark", { script: example("readers_and_writer"), turn: 8, dark: true, width: 1440, height: 900 });
} finally {
  await browser.close();
  close();
}
