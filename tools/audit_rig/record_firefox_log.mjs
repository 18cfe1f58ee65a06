// Records a walk through the nine sites with Firefox, as events of WebDriver BiDi. Takes ports 443 and 80 of this machine.
//   node --experimental-websocket record_firefox_log.mjs OUT
// OUT/server.jsonl is what was really sent, OUT/bidi.jsonl the events, OUT/jar.json the cookies at the end.
import { begin, Connection, end, lines, said, sleep, write } from './common.mjs';
import { startFirefox } from './firefox.mjs';

const PORT = 9333;
const out = process.argv[2];
if (!out) {
  console.error('usage: record_firefox_log.mjs OUT');
  process.exit(2);
}
const rig = await begin(out, 'server.jsonl');
rig.server.forward();
const log = lines(out, 'bidi.jsonl');
const browser = startFirefox(rig.folder, ['--remote-debugging-port', String(PORT)]);
await said(browser, /BiDi listening/);
const connection = new Connection(`ws://127.0.0.1:${PORT}/session`, (event) => log({ t: Date.now() / 1000, ...event }));
await connection.opened;

try {
  const { capabilities } = await connection.send('session.new',
    { capabilities: { alwaysMatch: { acceptInsecureCerts: true } } });
  write(out, 'about.json', { version: `${capabilities.browserName} ${capabilities.browserVersion}` });
  await connection.send('session.subscribe', { events: ['network', 'browsingContext'] });
  await walk();
  write(out, 'jar.json', await connection.send('storage.getCookies', {}));
} catch (fault) {
  console.error(fault.message);
} finally {
  connection.send('session.end', {}).catch(() => {});
  await sleep(500);
  await end(browser, rig);
}

async function openTab() {
  return (await connection.send('browsingContext.create', { type: 'tab' })).context;
}

async function go(context, url) {
  await connection.send('browsingContext.navigate', { context, url, wait: 'complete' })
    .catch((fault) => console.error(url, fault.message));
  await sleep(1300);
}

async function run(context, expression, milliseconds = 1300) {
  await connection.send('script.evaluate', { expression, target: { context }, awaitPromise: false, userActivation: true })
    .catch((fault) => console.error(fault.message));
  await sleep(milliseconds);
}

async function walk() {
  const first = await openTab();
  for (const url of ['https://track.test/', 'https://pay.test/', 'https://news.test/']) await go(first, url);
  await go(await openTab(), 'https://blog.test/');
  await run(first, `document.getElementById('self').click()`);
  await go(first, 'https://news.test/');
  await run(first, `document.getElementById('bounce').click()`, 2500);
  await run(first, `document.getElementById('form').submit()`);
  const third = await openTab();
  for (const url of ['https://widget.test/', 'https://shop.test/', 'http://plain.test/', 'https://news.test/'])
    await go(third, url);
  await sleep(1500);
}
