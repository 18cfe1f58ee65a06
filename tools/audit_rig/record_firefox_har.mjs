// Records a walk through the nine sites with Firefox, as the HAR that its network monitor writes of one tab. Takes ports 443
// and 80 of this machine.
//   node record_firefox_har.mjs OUT
// OUT/har-server.jsonl is what was really sent, OUT/firefox.har the recording.
import net from 'node:net';
import { begin, end, sleep, write } from './common.mjs';
import { startFirefox } from './firefox.mjs';

const PORT = 2929;
const out = process.argv[2];
if (!out) {
  console.error('usage: record_firefox_har.mjs OUT');
  process.exit(2);
}
const rig = await begin(out, 'har-server.jsonl');
rig.server.forward();
const browser = startFirefox(rig.folder, ['--marionette', '--remote-allow-system-access'], {
  'marionette.port': PORT,
  'devtools.netmonitor.persistlog': true,
  'devtools.netmonitor.har.includeResponseBodies': false,
});
const socket = await connected();
const waiting = new Map();
let count = 0;
let bytes = Buffer.alloc(0);
socket.on('data', take);

try {
  await send('WebDriver:NewSession',
    { acceptInsecureCerts: true, capabilities: { alwaysMatch: { acceptInsecureCerts: true } } });
  await inBrowser(`
    const { require } = ChromeUtils.importESModule('resource://devtools/shared/loader/Loader.sys.mjs');
    const { gDevTools } = require('devtools/client/framework/devtools');
    const window = Services.wm.getMostRecentWindow('navigator:browser');
    window.auditToolbox = await gDevTools.showToolboxForTab(window.gBrowser.selectedTab, { toolId: 'netmonitor' });`);
  await sleep(1500);
  await walk();
  const har = await inBrowser(`
    const window = Services.wm.getMostRecentWindow('navigator:browser');
    return JSON.stringify(await window.auditToolbox.getHARFromNetMonitor());`);
  const log = JSON.parse(har);
  write(out, 'firefox.har', log.log ? log : { log });
} catch (fault) {
  console.error(fault.message);
} finally {
  await end(browser, rig);
}

async function connected() {
  for (let i = 0; i < 100; i++) {
    const socket = await new Promise((done) => {
      const made = net.connect(PORT, '127.0.0.1', () => done(made));
      made.on('error', () => done(null));
    });
    if (socket) return socket;
    await sleep(300);
  }
  throw new Error('Firefox does not listen');
}

// Messages are a length, a colon, and so many bytes of JSON: a list of kind, number, fault and result.
function take(more) {
  bytes = Buffer.concat([bytes, more]);
  for (;;) {
    const colon = bytes.indexOf(':');
    const length = Number(bytes.subarray(0, colon));
    if (colon < 0 || bytes.length < colon + 1 + length) return;
    const message = JSON.parse(bytes.subarray(colon + 1, colon + 1 + length));
    bytes = bytes.subarray(colon + 1 + length);
    if (!Array.isArray(message)) continue;
    const [, number, fault, result] = message;
    const { good, bad } = waiting.get(number);
    waiting.delete(number);
    if (fault) bad(new Error(fault.message));
    else good(result);
  }
}

function send(command, parameters = {}) {
  count += 1;
  const text = JSON.stringify([0, count, command, parameters]);
  socket.write(`${Buffer.byteLength(text)}:${text}`);
  return new Promise((good, bad) => waiting.set(count, { good, bad }));
}

// What a script in the browser itself gives, and not in a page.
async function inBrowser(body) {
  await send('Marionette:SetContext', { value: 'chrome' });
  const script = `const done = arguments[arguments.length - 1];
    (async () => { ${body} })().then((value) => done({ value }), (fault) => done({ fault: String(fault) }));`;
  const { value } = await send('WebDriver:ExecuteAsyncScript', { script, args: [] });
  await send('Marionette:SetContext', { value: 'content' });
  if (value?.fault) throw new Error(value.fault);
  return value?.value;
}

async function go(url) {
  await send('WebDriver:Navigate', { url }).catch((fault) => console.error(url, fault.message));
  await sleep(1500);
}

async function run(script, milliseconds = 1500) {
  await send('WebDriver:ExecuteScript', { script, args: [] });
  await sleep(milliseconds);
}

async function walk() {
  for (const url of ['https://track.test/', 'https://pay.test/', 'https://news.test/', 'https://blog.test/', 'https://news.test/'])
    await go(url);
  await run(`document.getElementById('self').click()`);
  await go('https://news.test/');
  await run(`document.getElementById('bounce').click()`, 2500);
  await run(`document.getElementById('form').submit()`);
  for (const url of ['https://widget.test/', 'https://shop.test/', 'http://plain.test/', 'https://news.test/']) await go(url);
}
