// The rules of docs/PAGE.md, held against the page: first its modules in node, then the page in a headless Chromium, from file://.
// page/test runs it. A line for each test; status 1 where something differs.
import { spawn, spawnSync } from "node:child_process";
import { once } from "node:events";
import { cpSync, mkdirSync, mkdtempSync, readFileSync, readdirSync, rmSync, writeFileSync, existsSync } from "node:fs";
import { createServer } from "node:http";
import { tmpdir } from "node:os";
import { basename, join, resolve } from "node:path";

const root = resolve(new URL("..", import.meta.url).pathname), programs = resolve(root, process.env.PROGRAMS);
const [, , pictures, large] = process.argv;
const page = resolve(root, process.env.PAGE || "page/quendaric.html"), read = (name) => readFileSync(resolve(root, name));
const place = mkdtempSync(join(tmpdir(), "quendaric-page-")), saved_to = join(place, "saved"), given = join(place, "given");
const sleep = (time) => new Promise((done) => setTimeout(done, time));
let passed = 0, failed = 0;
function same(what, found, expected) {
  const is_same = Buffer.compare(Buffer.from(found ?? "nothing"), Buffer.from(expected)) === 0;
  is_same ? passed++ : failed++;
  console.log(`  ${is_same ? "ok" : "DIFFERS"}: ${what}`);
  if (!is_same) console.log(`found:\n${String(found).slice(0, 1500)}\nexpected:\n${String(expected).slice(0, 1500)}`);
}
const holds = (what, fact, found = fact) => same(what, fact ? "holds" : JSON.stringify(found), "holds");

// The lines that a page of text shows below a command.
function below(name, command) {
  const lines = read(name).toString().split("\n");
  const rest = lines.slice(lines.findIndex((line) => line.startsWith("    $ " + command)) + 1);
  const end = rest.findIndex((line) => line.startsWith("    $ ") || !line.startsWith("    "));
  return rest.slice(0, end).map((line) => line.slice(4) + "\n");
}
// A program of the command line, in a folder.
function command_line(words, folder) {
  const { status, stdout, stderr } = spawnSync(join(programs, words[0]), words.slice(1), { cwd: folder, maxBuffer: 1 << 30 });
  return { status, out: stdout, err: stderr };
}
mkdirSync(saved_to), mkdirSync(given);
for (const name of ["tables/pentium-1994.table", "tables/kept.table", "tables/readback.hex", "examples/season.csv"])
  cpSync(resolve(root, name), join(given, basename(name)));
const put = (name, content) => (writeFileSync(join(given, name), content), name);

// ---- In node: the modules of the page
const inside = (id) => read(page).toString().match(new RegExp(`<script type="text/plain" id="${id}"[^>]*>([^]*?)</script>`))[1];
const worker = {};
new Function("exports", inside("worker"))(worker);
const [unit, tools] = ["unit", "tools"].map((id) => new WebAssembly.Module(Buffer.from(inside(id), "base64")));
let seed = 20261118;
const draw = (below) => (seed = (seed * 1103515245 + 12345) & 0x7fffffff, Math.floor(seed / 2 ** 31 * below));
const pick = (...all) => all[draw(all.length)];
const decimal = () => pick("", "-", "") + draw(pick(10, 10000, 1e9)) +
  pick("", "." + draw(1e6), "." + draw(1e9) + draw(1e9), "e" + (draw(700) - 350));
function drawn_records(lines) {
  let text = pick("time,current,sensitivity,filed\n", "time,current,sensitivity,filed,monitor\n");
  const has_monitor = text.includes("monitor");
  for (let i = 0; i < lines; i++) {
    const current = draw(90000), sensitivity = 500 + draw(1000);
    const line = draw(20) ? `${1763280000 + i},${current},${sensitivity},${pick((current / sensitivity).toFixed(2), "2.34", "")}`
      : `${pick(i, "x", "2025-11-16T08:00:00Z")},${decimal()},${decimal()},${pick(decimal(), "nan", "")}`;
    text += line + (has_monitor ? `,m${draw(3)}` : "") + pick("\n", "\n", "\n", "\r\n", "\n\n");
  }
  return text;
}
function is_as_native(words, names, outputs) {
  const folder = new Map(names.map((name) => {
    const bytes = readFileSync(join(given, name));
    return [name, { name, size: bytes.length, read: (from, to) => bytes.subarray(from, to) }];
  }));
  const there = mkdtempSync(join(place, "native-"));
  for (const name of names) cpSync(join(given, name), join(there, name));
  const here = worker.run(tools, words, folder), native = command_line(words, there);
  const whole = outputs.every((name) => existsSync(join(there, name)) === folder.has(name) &&
    (!folder.has(name) || Buffer.compare(readFileSync(join(there, name)), folder.get(name).whole()) === 0));
  const left = [...folder.keys()].every((name) => names.includes(name) || outputs.includes(name));
  const is_one = (a, b) => Buffer.compare(a, b) === 0;
  const agree = here.status === native.status && is_one(here.out, native.out) && is_one(here.err, native.err);
  rmSync(there, { recursive: true });
  return agree && whole && left ? "" : `${words.join(" ")}: ${here.status}, ${native.status}\n${Buffer.from(here.err)}\n${native.err}`;
}
function drawn_runs() {
  const faults = [];
  for (let i = 0; i < 60; i++) {
    put("drawn.csv", drawn_records(1 + draw(400)));
    const words = ["recheck", ...pick(["--estimate", "8"], ["--estimate", "7"], ["--estimate", "8"], []),
      ...pick([], ["--decimals", pick("2", "full", "17", "18")]), ...pick([], ["--direction", pick("zero", "up", "down")]),
      ...pick([], ["--json"]), ...pick([], ["--comma"]), ...pick([], ["--window", "5", "--averages", "recheck-averages.csv"],
        ["--window", "60", "--limit", pick("10", "1.5", "x"), "--step", pick("1", "60")]),
      "--picture", "recheck.svg", pick("pentium-1994.table", "kept.table"), "drawn.csv", ...pick([], ["season.csv"])];
    const names = ["pentium-1994.table", "kept.table", "drawn.csv", "season.csv"];
    faults.push(is_as_native(words, names, ["recheck.svg", "recheck-averages.csv"]));
  }
  for (let i = 0; i < 60; i++) {
    const bytes = Buffer.from(read(pick("tables/pentium-1994.table", "tables/kept.table"))), hex = read("tables/readback.hex");
    for (let n = draw(3); n > 0; n--) bytes[draw(2048)] = draw(7), hex[draw(hex.length)] = pick(48, 65, 10, 58);
    put("drawn.table", bytes), put("drawn.hex", hex);
    put("drawn.h", `t[] = {${[...bytes].map((b) => pick(b, "0x" + b.toString(16), `/* */ ${b}`))}};`);
    const image = pick("drawn.table", "drawn.hex", "drawn.h");
    const storing = pick([], ["--halves"], ["--mask", "7"], ["--base", "0"], ["--offset", "16"]);
    const to = "out" + pick(".table", ".hex", ".h", ".mem", ".txt");
    faults.push(is_as_native(["rom", pick("read", "write"), ...storing, image, to], [image], [to]),
      is_as_native(["rom", "diff", ...storing, image, "kept.table"], [image, "kept.table"], []),
      is_as_native(["check", ...pick([], ["--list"]), ...pick(["7"], ["8"], []), image], [image], []));
  }
  return faults.filter((fault) => fault !== "").slice(0, 3).join("\n");
}
same("drawn images and records: 240 runs of tools.wasm write what the programs write", drawn_runs(), "");

// What the plot shows of every cell, against rom diff, which prints what each cell allows, and against check --list.
function plot_and_programs() {
  const burned = read("tests/data/all-bad.table"), words = (mask) => [0, 1, 2, 3, 4].filter((byte) => mask >> byte & 1).join();
  put("nines.table", Buffer.alloc(2048, 9)), put("all-bad.table", burned);
  const allowed = command_line(["rom", "diff", "nines.table", "all-bad.table"], given).out.toString();
  const [by_8, by_7] = ["8", "7"].map((bits) => worker.examine(unit, bits, burned));
  const place_of = (cell) => `${cell >> 7} ${cell & 127}`, numbers_in = (text) => text.match(/-?\d+/g).join(" ");
  const shown = Array.from(burned, (byte, cell) =>
    `${place_of(cell)} 9 ${byte} ${words(by_8.allowed[cell])} ${words(by_7.allowed[cell])}\n`);
  const list = (found) => [...found.witness].map(([cell, text]) => `${place_of(cell)} ${burned[cell]} ${numbers_in(text)}\n`);
  const of_check = (bits) => command_line(["check", "--list", bits, "all-bad.table"], given).out.toString().match(/^row[^]*/m)[0];
  const heads = ["row column A B allowed-by-8 allowed-by-7\n", "row column byte divisor remainder\n"];
  same("the plot's digits are what rom diff prints", heads[0] + shown.join(""), allowed);
  for (const [bits, found] of [["8", by_8], ["7", by_7]])
    same(`the plot's witnesses are those of check, ${bits} bits`, heads[1] + list(found).join(""), of_check(bits));
}
plot_and_programs();

// ---- In a browser
if (!process.env.BROWSER) {
  console.log(`page: the browser's part NOT RUN, for want of chromium; ${passed} passed, ${failed} failed`);
  rmSync(place, { recursive: true });
  process.exit(failed ? 1 : 0);
}
const browser = spawn(process.env.BROWSER, ["--headless=new", "--no-sandbox", "--disable-gpu", "--disable-background-networking",
  `--user-data-dir=${join(place, "profile")}`, "--remote-debugging-pipe", "about:blank"],
  { stdio: ["ignore", "ignore", "ignore", "pipe", "pipe"] });
const waiting = new Map(), events = [];
let number = 0, rest = "", sessionId;
browser.stdio[4].on("data", (data) => {
  rest += data;
  for (let end; (end = rest.indexOf("\0")) >= 0; rest = rest.slice(end + 1)) {
    const { id, error, result, ...event } = JSON.parse(rest.slice(0, end));
    if (!id) events.push(event);
    else error ? waiting.get(id).reject(new Error(error.message)) : waiting.get(id).resolve(result);
  }
});
const send = (method, params = {}, session = sessionId) => new Promise((resolve, reject) => {
  waiting.set(++number, { resolve, reject });
  browser.stdio[3].write(JSON.stringify({ id: number, method, params, sessionId: session }) + "\0");
});
async function evaluate(expression) {
  const how = { awaitPromise: true, returnByValue: true, userGesture: true };
  const { result, exceptionDetails } = await send("Runtime.evaluate", { expression, ...how });
  if (exceptionDetails) throw new Error(exceptionDetails.exception?.description ?? exceptionDetails.text);
  return result.value;
}
async function until(expression, most = 60000) {
  for (const end = Date.now() + most; Date.now() < end; await sleep(30)) {
    const value = await evaluate(expression);
    if (value) return value;
  }
  throw new Error("waited in vain for " + expression);
}
const shown = (id) => evaluate(`document.getElementById("${id}")?.textContent ?? ""`);
const answer_shown = async () => (await shown("season-status")) + (await shown("season-more"));
async function status_with(id, part) {
  await until(`document.getElementById("${id}").textContent.includes(${JSON.stringify(part)})`);
  return shown(id);
}
async function give(id, ...names) {
  const { root: { nodeId } } = await send("DOM.getDocument");
  const { nodeId: input } = await send("DOM.querySelector", { nodeId, selector: "#" + id });
  await send("DOM.setFileInputFiles", { nodeId: input, files: names.map((name) => resolve(given, name)) });
}
const click = (selector) => evaluate(`document.querySelector(${JSON.stringify(selector)}).click()`);
const set = (id, value) => evaluate(`{
  const e = document.getElementById("${id}");
  e.${typeof value === "boolean" ? "checked" : "value"} = ${JSON.stringify(value)};
  e.dispatchEvent(new Event("input", { bubbles: true })); }`);
const bits = (n) => click(`[name=bits][value="${n}"]`);
async function go(part = ". ") {
  await until(`!document.getElementById("go").disabled`);
  await click("#go");
  return status_with("season-status", part);
}
// Presses every button that saves below a place, and returns what came to the disk.
async function saved(id) {
  const labels = await evaluate(`[...document.querySelectorAll("#${id} .save")].map((one) => one.textContent)`), files = {};
  for (const [i, label] of labels.entries()) {
    const before = events.length;
    await evaluate(`document.querySelectorAll("#${id} .save")[${i}].click()`);
    const find = (method, fact) => events.slice(before).find((one) => one.method === method && fact(one.params));
    for (let n = 0; !find("Browser.downloadProgress", (one) => one.state === "completed"); n++)
      if (n > 200) throw new Error(`${label}: nothing is saved`); else await sleep(30);
    const name = find("Browser.downloadWillBegin", () => true).params.suggestedFilename;
    files[label] = { name, bytes: readFileSync(join(saved_to, name)) };
    rmSync(join(saved_to, name));
    await sleep(150); // Chromium takes ten in a second
  }
  return files;
}
async function picture(name) {
  if (!pictures) return;
  const { cssContentSize: { width, height } } = await send("Page.getLayoutMetrics");
  const { data } = await send("Page.captureScreenshot", { captureBeyondViewport: true, clip: { x: 0, y: 0, width, height, scale: 1 } });
  writeFileSync(join(pictures, name), Buffer.from(data, "base64"));
}
const key = async (name, text) => {
  const of = { key: name, code: name === " " ? "Space" : name, windowsVirtualKeyCode: { Tab: 9, Enter: 13, " ": 32 }[name] };
  await send("Input.dispatchKeyEvent", { type: "keyDown", ...of, text });
  await send("Input.dispatchKeyEvent", { type: "keyUp", ...of });
};
const focus = () => evaluate(`((e) => e.id || e.value || e.textContent.slice(0, 40))(document.activeElement)`);
async function open(file) {
  await send("Page.navigate", { url: "file://" + file });
  await until(`document.readyState === "complete" && document.getElementById("table-status")?.textContent`);
  // Whatever is shown from now on, and when: is it about the files that are chosen?
  await evaluate(`window.strange = []; new MutationObserver(() => {
    const chosen = { table: [...image.files], season: [...records.files] };
    for (const kind in chosen) {
      const names = chosen[kind].map((file) => file.name).join(", ");
      const said = document.getElementById(kind + "-status").textContent;
      const is_fixed = /^(Choose a table|Reading \\.\\.|Stopped|$)/.test(said);
      const head = document.querySelector("#" + kind + "-more h3")?.textContent;
      if (!is_fixed && !names.split(", ").some((name) => said.startsWith(name))) strange.push(said);
      if (head && !head.endsWith(" say of " + names) && !head.endsWith(" says of " + names)) strange.push(head);
    }
  }).observe(document.body, { subtree: true, childList: true, characterData: true }); 0`);
}
// The commands that the page shows, done again by the programs: all that they say, and their statuses.
function repeated(text, folder) {
  const quoted = (line) => `'${line.replaceAll("'", "'\\''")}'`;
  const input = text.split("\n").filter((line) => line.startsWith("$ "))
    .map((line) => `printf '%s\\n' ${quoted(line)}; ${line.slice(2)} 2>err; s=$?; cat err; echo "status $s"\n`).join("");
  return spawnSync("sh", ["-s"], { cwd: folder, env: { PATH: `${programs}:${process.env.PATH}` }, input }).stdout;
}
function folder_of(...names) {
  const made = mkdtempSync(join(place, "again-"));
  for (const name of names) cpSync(join(given, name), join(made, name));
  return made;
}

const good = "kept.table by 8 bits: passed; bad cells: 0; by seven bits: bad, bad cells: 17";
const two_wrong = "season.csv: some records are wrong. records: 1000 = 998 right + 2 wrong + 0 unreadable";
const bad = "pentium-1994.table by 8 bits: bad; bad cells: 5; by seven bits: bad, bad cells: 24";

async function table_tests() {
  same("nothing is chosen beforehand", await evaluate(`[document.querySelectorAll("[name=bits]:checked").length, go.disabled,
    [...document.querySelectorAll("input:not([type]), select")].map((e) => e.value).join("")].join()`), "0,true,ppm");
  await give("image", "kept.table");
  same("both verdicts before the bits are chosen", await status_with("table-status", "kept"),
    "kept.table: 0 bytes above 4; bad cells: 0 by eight bits, 17 by seven. Choose seven or eight bits.");
  await bits(8);
  same("kept.table by eight bits", await status_with("table-status", "by 8"), good);
  await bits(7);
  same("kept.table by seven bits", await status_with("table-status", "by 7"),
    "kept.table by 7 bits: bad; bad cells by seven bits: 17; by eight bits: passed, bad cells: 0");
  await bits(8);
  await give("image", "pentium-1994.table");
  same("pentium-1994.table by eight bits", await status_with("table-status", "pentium"), bad);
  let files = await saved("table-more"), names = Object.keys(files).map((label) => files[label].name).join(" ");
  same("what can be saved of a table", names, "pentium-1994-repaired.table pentium-1994-repaired.hex " +
    "pentium-1994-repaired-digits.table changes.txt check.txt commands.txt");
  const mended = Buffer.from(read("tables/pentium-1994.table"));
  for (const [row, column] of [[1, 87], [4, 91], [7, 95], [10, 99], [13, 103]]) mended[128 * row + column] = 4;
  same("the repaired table", files["Save pentium-1994-repaired.table"].bytes, mended);
  const changes = below("docs/TABLE-MAKER.md", "build/rom diff").slice(0, -1).join("");
  same("changes are those of TABLE-MAKER.md", files["Save changes"].bytes, changes);
  const marks = await evaluate(`["rect.bad", ".cross"].map((kind) => document.querySelectorAll(kind).length).join()`);
  same("bad cells: outlined, with a cross", marks, "5,5");
  same("bad cells: the tooltip", await evaluate(`document.querySelector("rect.bad title").textContent`),
    "row 1, column 87: digit 0\nallowed: 2\nbad; witness: divisor 1242993497154256896, remainder 3314649325744685056");
  same("bad cells: the text", (await shown("table-said")).match(/^row column byte[^]*?(?=status)/m)[0],
    below("docs/TABLE-MAKER.md", "target/bin/listing").join("").replace("digit", "byte").replace(/^(\d+ \d+) 0/gm, "$1 2"));
  await picture("table.png");

  await set("halves", true);
  await give("image", "readback.hex");
  const same_verdict = async (what, name, verdict) =>
    same(what, await status_with("table-status", `${name} by`), verdict.replace(/^\S+/, name));
  await same_verdict("readback.hex, halves exchanged", "readback.hex", bad);
  files = await saved("table-more");
  const there = folder_of("readback.hex");
  writeFileSync(join(there, "readback-repaired-digits.table"), files["Save readback-repaired-digits.table"].bytes);
  same("the commands, repeated: table", await shown("table-said"), repeated(await shown("table-said"), there));
  const burned = readFileSync(join(there, "readback-repaired.hex"));
  same("the commands, repeated: what is saved", files["Save readback-repaired.hex"].bytes, burned);
  same("commands.txt is what is shown", files["Save commands"].bytes, await shown("table-said"));
  await set("halves", false);

  put("as-array.h", "const char t[] = {" + [...read("tables/pentium-1994.table")].join() + "};\n");
  await give("image", "as-array.h");
  await same_verdict("a C array", "as-array.h", bad);
  put("ones.rom", read("tables/kept.table").map((byte) => byte | 0xf8));
  await set("mask", "7");
  await give("image", "ones.rom");
  await same_verdict("a mask", "ones.rom", good);
  await set("mask", "");
  await give("image", put("no-table.txt", read("README.md")));
  same("a file that is no table", await status_with("table-status", "no-table"),
    "no-table.txt: not read. rom: no-table.txt:1: this is no number from -128 to 255");
  const lines = read("tables/readback.hex").toString().split("\n");
  await give("image", put("damaged.hex", lines.filter((_, i) => i !== 8).join("\n")));
  same("a damaged image", await status_with("table-status", "damaged"),
    "damaged.hex: not read. rom: damaged.hex:128: the end, and bytes are missing: 16, the first at address 0x80");
  const left = await evaluate(`document.querySelectorAll("#table-more .save, #table-more svg").length`);
  same("of these there is nothing to save", String(left), "0");
  await give("image", put("nines.table", Buffer.alloc(2048, 9)));
  same("bytes that are no digits", await status_with("table-status", "nines"),
    "nines.table by 8 bits: refused; bytes above 4: 2048; bad cells: 0; by seven bits: refused, bad cells: 0");
}

async function race_tests() {
  const ends = [];
  for (let i = 0; i < 20; i++) {
    const last = i % 2 ? "kept.table" : "pentium-1994.table";
    await give("image", i % 2 ? "pentium-1994.table" : "kept.table");
    await sleep(i * 4);
    await give("image", last);
    ends.push(await status_with("table-status", last) === (i % 2 ? good : bad));
  }
  same("tables exchanged while they are read: 20 times", ends.join(), Array(20).fill(true).join());
  ends.length = 0;
  for (let i = 0; i < 20; i++) {
    await bits(8);
    await give("image", "kept.table");
    await sleep(i * 4);
    await bits(7);
    await sleep(i % 3 ? 0 : 30);
    await bits(8);
    ends.push(await status_with("table-status", "by 8") === good);
  }
  same("bits chosen while a table is read: 20 times", ends.join(), Array(20).fill(true).join());
  const records = Array.from({ length: 200000 }, (_, i) => `${1763280000 + i},3175,1343,2.34\n`);
  put("long.csv", "time,current,sensitivity,filed\n" + records.join(""));
  await give("image", "pentium-1994.table");
  await give("records", "long.csv");
  await go("");
  await give("records", "season.csv");
  same("records exchanged during a recheck", await answer_shown(), "");
  await sleep(1500);
  same("records exchanged during a recheck: later", await answer_shown(), "");
  await give("records", "long.csv");
  await go("");
  await give("image", "kept.table");
  await status_with("table-status", "kept");
  await sleep(1500);
  same("a table exchanged during a recheck", await answer_shown(), "");
  await go("");
  await click("#stop");
  await sleep(1500);
  same("a recheck that is stopped", await answer_shown(), "Stopped: there is no result.");
}

async function season_tests() {
  await give("image", "pentium-1994.table");
  await status_with("table-status", "pentium");
  await give("records", "season.csv");
  await set("window", "900");
  same("season.csv", await go("season.csv: "), two_wrong);
  const lines = below("README.md", "build/recheck --estimate 8"), head = lines.findIndex((line) => line.startsWith("table:"));
  const files = await saved("season-more");
  const summary = lines.slice(head, -1).join("").replace("tables/", "").replace("examples/", "");
  same("README's summary, without the folders of the files", await shown("summary"), summary);
  same("README's list", files["Save wrong records"].bytes, lines.slice(0, head).join(""));
  same("README's picture, docs/season.svg", files["Save picture"].bytes, read("docs/season.svg"));
  same("the summary that is saved", files["Save summary"].bytes, summary);
  const there = folder_of("pentium-1994.table", "season.csv"), [read_command, recheck_command] = (await shown("commands")).split("\n");
  same("the commands, repeated: season", repeated(await shown("commands"), there), `${read_command}\n` +
    `pentium-1994-digits.table: 0 bytes above 4; bad cells: 5 by eight bits, 24 by seven\nstatus 0\n${recheck_command}\n` +
    `${files["Save wrong records"].bytes}${files["Save summary"].bytes}status 1\n`);
  same("the commands, repeated: averages", files["Save averages"].bytes, readFileSync(join(there, "recheck-averages.csv")));
  const texts = (selector) => evaluate(`[...document.querySelectorAll("${selector}")].map((one) => one.textContent).join()`);
  same("the words over the list", await texts("#wrong th"),
    "Date and time,current,sensitivity,Should have been (ppm),Filed (ppm),Made wrong by the table,by the other bits");
  same("the first line of it", await texts("#wrong tbody tr:first-child td"),
    "1763280329 = 2025-11-16 08:05:29 UTC,3175,1343,2.36,2.34,1,0");
  const assumed = "28 digits by the specified steps and adds 8 bits. Right values are rounded to nearest.";
  holds("what was assumed is said", (await shown("assumed")).includes(assumed), await shown("assumed"));
  await picture("season.png");

  const values = { decimals: "2", comma: true, limit: "1.5", step: "1", smallest: "0.01", monitor: "5", joined: true,
    numbers: "--numbers", direction: "up", json: true };
  for (const id in values) await set(id, values[id]);
  await go("season.csv: ");
  same("each option is a word of the command", (await shown("commands")).split("\n")[1], "$ recheck --estimate 8 --direction up " +
    "--decimals 2 --comma --numbers --monitor 5 --joined --window 900 --step 1 --unit 0.01 --limit 1.5 " +
    "--averages recheck-averages.csv --picture recheck.svg --json pentium-1994.table season.csv");
  for (const id in values) await set(id, typeof values[id] === "boolean" ? false : "");
  await give("records", put("above.csv", "1,3175,1343,2.34\n2,3175,1343,2.34\n3,3175,1343,2.34\n"));
  for (const [id, value] of [["window", "2"], ["limit", "2.35"], ["smallest", "0.01"]]) await set(id, value);
  same("windows above the limit", await go("above.csv: "), "above.csv: some records are wrong. records: 3 = 0 right + 3 wrong + " +
    "0 unreadable; right average above 2.35, and the filed one not: 2; filed average above 2.35, and the right one not: 0");
  for (const id of ["window", "limit", "smallest"]) await set(id, "");
  await give("records", "long.csv");
  await go("long.csv: some");
  const cut = [await evaluate(`document.querySelectorAll("#wrong tbody tr").length`), await shown("wrong"), await saved("season-more")];
  same("a long list is cut on the page alone", `${cut[0]} ${cut[1].match(/The first .*? saved\./)?.[0]} ` +
    cut[2]["Save wrong records"].bytes.toString().split("\n").length, "500 The first 500 are shown, and all are saved. 200002");
  await give("records", put("unreadable.csv", "1,2,3\n" + Array.from({ length: 5000 }, (_, i) => `x${i}\n`).join("")));
  const long = await go("unreadable.csv: "), whole = (await saved("season-more"))["Save summary"].bytes.toString();
  same("a long summary is cut on the page alone", `${long} ${(await shown("summary")).match(/\[\.\. .* \.\.\]/)?.[0]} ` +
    whole.match(/^unreadable.csv:\d+: /gm).length, "unreadable.csv: LESS WAS DONE THAN WAS ASKED, see below. records: 5001 = 1 right + " +
    `0 wrong + 5000 unreadable [.. the file that is saved has all ${whole.length} bytes ..] 5000`);
  await give("records", "season.csv");
  await set("window", "many");
  same("an option that recheck refuses", (await go("season.csv: ")).slice(0, 25) + (await shown("summary")).split("\n")[0],
    "season.csv: LESS WAS DONErecheck: --window: it does not take this value");
  await set("window", "");
  await set("json", true);
  await go("season.csv: ");
  const json = JSON.parse((await saved("season-more"))["Save JSON"].bytes);
  same("JSON", `${json.list.length} ${json.summary.status}`, "2 1");
  await set("json", false);
  await give("records", "season.csv", put("half read.csv", "1763290000,3175,1343,2.36\nx\n"));
  same("lines that cannot be read, and several files", await go("LESS"), "season.csv, half read.csv: LESS WAS DONE THAN WAS ASKED, " +
    "see below. records: 1002 = 999 right + 2 wrong + 1 unreadable");
  holds("a name with a blank is quoted", (await shown("commands")).includes(" season.csv 'half read.csv'\n"));
  mkdirSync(join(given, "other"), { recursive: true });
  writeFileSync(join(given, "other/pentium-1994.table"), "1,2,3\n");
  await give("records", "other/pentium-1994.table");
  same("two files of one name", await go("no result"), "pentium-1994.table: no result. two files have the name pentium-1994.table");
  await give("records", put("changing.csv", "1,3175,1343,2.34\n"));
  await evaluate("records.files[0].size + records.files[0].lastModified"); // the browser has looked at it
  await sleep(50);
  put("changing.csv", "1,3175,1343,2.36\n2,3175,1343,2.36\n");
  same("a file that changed since it was chosen", (await go("changing.csv: ")).split(":").slice(0, 2).join(":"),
    "changing.csv: no result. NotReadableError");
}

async function reader_tests() {
  await give("records", "season.csv");
  await go("season.csv: ");
  await evaluate(`document.querySelectorAll("details").forEach((one) => (one.open = true))`);
  const nodes = (await send("Accessibility.getFullAXTree")).nodes.filter((one) => !one.ignored);
  const roles = new Set(["progressindicator", "image", "img", "table", "region", "RootWebArea"]);
  const wants_name = (one) => roles.has(one.role?.value) || one.properties?.some((p) => p.name === "focusable" && p.value.value);
  const nameless = nodes.filter((one) => wants_name(one) && !one.name?.value);
  same("every control has a name", nameless.map((one) => one.role.value).join(), "");
  holds("so many controls were asked", nodes.filter(wants_name).length >= 35, nodes.filter(wants_name).length);
  same("verdict and progress are told", nodes.filter((one) => one.role?.value === "status").length + "", "3");
  await evaluate(`document.activeElement.blur(), scrollTo(0, 0)`);
  await evaluate(`getSelection().collapse(document.body, 0)`);
  const seen = new Set();
  for (let i = 0; i < 60; i++) await key("Tab"), seen.add(await focus());
  const controls = await evaluate(`[...document.querySelectorAll("input[id], select, button[id]")]
    .filter((e) => !e.hidden && !e.disabled).map((e) => e.id)`);
  same("every control is reached by Tab", [...controls, "Save wrong records", "Save picture"].filter((id) => !seen.has(id)).join(), "");

  await open(page);
  await give("image", "pentium-1994.table");
  await give("records", "season.csv");
  const tab_to = async (wanted) => { for (let i = 0; i < 60 && (await focus()) !== wanted; i++) await key("Tab"); };
  await tab_to("8");
  await key(" ", " ");
  await status_with("table-status", "by 8");
  await tab_to("window");
  await send("Input.insertText", { text: "900" });
  await tab_to("go");
  await key("Enter", "\r");
  same("by keyboard alone: a recheck", await status_with("season-status", "wrong"), two_wrong);
  await tab_to("Save wrong records");
  const before = events.length;
  await key("Enter", "\r");
  for (let n = 0; n < 100 && !events.slice(before).some((one) => one.params.state === "completed"); n++) await sleep(30);
  same("by keyboard alone: it is saved", readdirSync(saved_to).join(), "recheck.csv");
  rmSync(join(saved_to, "recheck.csv"));
  await evaluate(`document.querySelector("#table-more input").focus()`);
  await send("Input.insertText", { text: "1" });
  await key("Tab");
  await send("Input.insertText", { text: "87" });
  same("by keyboard alone: a cell", await evaluate(`document.querySelector("#table-more output").textContent`),
    "row 1, column 87: digit 0; allowed: 2; bad; witness: divisor 1242993497154256896, remainder 3314649325744685056");

  await send("Emulation.setDeviceMetricsOverride", { width: 360, height: 740, deviceScaleFactor: 1, mobile: true });
  await evaluate(`document.querySelectorAll("details").forEach((one) => (one.open = true))`);
  const wide = await evaluate("document.scrollingElement.scrollWidth");
  holds("360 pixels wide", wide <= 360, wide);
  await picture("narrow.png");
  await send("Emulation.setDeviceMetricsOverride", { width: 1100, height: 900, deviceScaleFactor: 1, mobile: false });
  for (const kind of ["deuteranopia", "achromatopsia"]) {
    await send("Emulation.setEmulatedVisionDeficiency", { type: kind });
    await picture(kind + ".png");
  }
  await send("Emulation.setEmulatedVisionDeficiency", { type: "none" });
  await send("Emulation.setEmulatedMedia", { media: "print" });
  same("on paper: no button, all of the answers", await evaluate(`[
    [...document.querySelectorAll("button, progress")].filter((e) => e.checkVisibility()).length,
    ...["table-status", "table-said", "plot", "summary", "assumed", "commands", "wrong", "picture"]
      .map((id) => document.getElementById(id).checkVisibility())].join()`), "0" + ",true".repeat(8));
  await send("Emulation.setEmulatedMedia", { media: "" });
  const paper = Buffer.from((await send("Page.printToPDF", { printBackground: true })).data, "base64");
  holds("on paper: pages", paper.subarray(0, 5).toString() === "%PDF-" && paper.length > 20000, paper.length);
  if (pictures) writeFileSync(join(pictures, "paper.pdf"), paper);
}

// Tries each way out, and counts what comes to a server here.
async function connections() {
  let came = 0;
  const server = createServer((_, answer) => (came++, answer.setHeader("Access-Control-Allow-Origin", "*"), answer.end()));
  server.listen(0, "127.0.0.1");
  await once(server, "listening");
  const url = `http://127.0.0.1:${server.address().port}/`;
  await evaluate(`(async () => {
    const quiet = async (what) => { try { await what(); } catch {} };
    const part = (name, of, wait = 0) => quiet(() => new Promise((done) => {
      const made = document.createElement(name);
      made.onload = made.onerror = done;
      document.body.append(Object.assign(made, of));
      if (wait) setTimeout(done, wait);
    }));
    await quiet(() => fetch("${url}fetch"));
    await quiet(() => new Promise((done) => {
      const x = new XMLHttpRequest();
      x.onloadend = done;
      x.open("GET", "${url}xhr");
      x.send();
    }));
    await quiet(() => navigator.sendBeacon("${url}beacon", "x"));
    await part("img", { src: "${url}image" });
    await part("script", { src: "${url}script" });
    await part("link", { rel: "stylesheet", href: "${url}style" });
    await quiet(() => new Promise((done) => (new WebSocket("${url}".replace("http", "ws")).onerror = done)));
    await quiet(() => new Promise((done) => {
      const x = new EventSource("${url}events");
      x.onerror = x.onopen = () => (x.close(), done());
    }));
    await part("iframe", { src: "${url}frame" }, 500);
    const form = Object.assign(document.createElement("form"), { action: "${url}form", target: "none" });
    document.body.append(form);
    await quiet(() => form.submit());
    await new Promise((done) => { new Worker(URL.createObjectURL(new Blob([\`fetch("${url}worker").catch(() => {}).then(() => {
      try { importScripts("${url}import"); } catch {} postMessage(0); })\`]))).onmessage = done; });
  })()`);
  await sleep(300);
  server.close();
  return came;
}

async function large_test() {
  await open(page);
  await give("image", "pentium-1994.table");
  await bits(8);
  await give("records", resolve(large));
  await set("window", "900");
  await until(`!document.getElementById("go").disabled`);
  const begun = Date.now(), bars = new Set(), words = new Set();
  await click("#go");
  for (let said = ""; !/wrong|LESS|result/.test(said); await sleep(50)) {
    bars.add(await evaluate(`progress.value`));
    words.add((said = await shown("season-status")));
  }
  console.log(`  ${(Date.now() - begun) / 1000} s; ${bars.size} values of the bar; ${[...words].join(", ")}`);
  await click("#go");
  await until(`progress.value > 0.3`);
  await click("#stop");
  same("a long recheck, stopped in the midst", await answer_shown(), "Stopped: there is no result.");
}

try {
  const { targetInfos } = await send("Target.getTargets");
  const { targetId } = targetInfos.find((one) => one.type === "page");
  ({ sessionId } = await send("Target.attachToTarget", { targetId, flatten: true }));
  for (const part of ["Page", "Runtime", "DOM", "Network", "Log", "Accessibility"]) await send(part + ".enable");
  await send("Browser.setDownloadBehavior", { behavior: "allow", downloadPath: saved_to, eventsEnabled: true }, undefined);
  await send("Emulation.setDeviceMetricsOverride", { width: 1100, height: 900, deviceScaleFactor: 1, mobile: false });
  const contents = () => new Map(readdirSync(given, { withFileTypes: true }).filter((one) => one.isFile())
    .map(({ name }) => [name, readFileSync(join(given, name)).toString("base64")]));
  const before = contents();
  await open(page);
  const strange = [], parts = [table_tests, race_tests, season_tests, reader_tests];
  for (const part of parts) await part(), strange.push(...await evaluate("strange"));
  if (large) await large_test();
  same("no answer over another name", strange.join("\n"), "");
  same("the files are as they were", [...before].filter(([name, content]) => contents().get(name) !== content).join(), "");
  const told = (...methods) => events.filter((one) => methods.includes(one.method)).map((one) => one.params);
  const asked = told("Network.requestWillBeSent").map((one) => one.request.url).filter((url) => !/^(file|blob|data):/.test(url));
  same("no request", asked.join(), "");
  const said = told("Log.entryAdded", "Runtime.exceptionThrown").map((one) => JSON.stringify(one));
  same("no error in the browser's log", said.join("\n"), "");
  same("connections are refused", String(await connections()), "0");
  const open_page = join(place, "open.html");
  writeFileSync(open_page, read(page).toString().replace(/<meta http-equiv="Content-Security-Policy"[^>]*>/, ""));
  await open(open_page);
  const came = await connections();
  holds("without the policy they are not", came >= 10, came);
} catch (error) {
  failed++;
  console.log("  FAILED:", error);
} finally {
  browser.kill();
  await Promise.race([once(browser, "exit"), sleep(3000)]);
  rmSync(place, { recursive: true, force: true, maxRetries: 5 });
}
console.log(`page: ${passed} passed, ${failed} failed`);
process.exit(failed ? 1 : 0);
