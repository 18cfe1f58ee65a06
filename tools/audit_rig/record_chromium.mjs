// Records a walk through the nine sites with Chromium.
//   node --experimental-websocket record_chromium.mjs OUT blocked|allowed
// OUT/server.jsonl is what was really sent, OUT/cdp.jsonl the events of the DevTools protocol, OUT/tabN.har what the developer
// tools' own export writes of each tab, OUT/tabN-sanitized.har the same without sensitive data, OUT/jar.json the cookies at the end.
import { spawn } from 'node:child_process';
import fs from 'node:fs';
import path from 'node:path';
import { begin, Connection, end, lines, said, sleep, write } from './common.mjs';

const [out, setting] = process.argv.slice(2);
if (!out || !['blocked', 'allowed'].includes(setting)) {
  console.error('usage: record_chromium.mjs OUT blocked|allowed');
  process.exit(2);
}
const RECORDED = /^(Network|Page|Target)\./;
const MANY = /dataReceived|lifecycle|resourceChangedPriority/;
const WALKED = /^(page|iframe|worker|service_worker|shared_worker)$/;

const rig = await begin(out, 'server.jsonl');
const log = lines(out, 'cdp.jsonl');
const browser = startBrowser();
const [, endpoint] = await said(browser, /DevTools listening on (ws:\S+)/);
const sessions = new Map();
const contexts = new Map();
const panels = new Map();
let isRecording = true;
const connection = new Connection(endpoint, take);
await connection.opened;
await connection.send('Target.setAutoAttach', { autoAttach: true, waitForDebuggerOnStart: true, flatten: true });

try {
  await walk();
  isRecording = false;
  await writeHars();
  write(out, 'jar.json', (await connection.send('Storage.getCookies')).cookies);
  write(out, 'about.json', { version: (await connection.send('Browser.getVersion')).product, setting });
} catch (fault) {
  console.error(fault.message);
} finally {
  await end(browser, rig);
}

function startBrowser() {
  const profile = path.join(rig.folder, 'profile');
  fs.mkdirSync(path.join(profile, 'Default'), { recursive: true });
  const isBlocked = setting === 'blocked';
  write(path.join(profile, 'Default'), 'Preferences', {
    profile: { cookie_controls_mode: isBlocked ? 1 : 0, block_third_party_cookies: isBlocked },
  });
  return spawn('chromium', ['--headless', '--no-sandbox', '--disable-gpu', '--disable-dev-shm-usage',
    '--remote-debugging-port=0', '--remote-allow-origins=*', `--user-data-dir=${profile}`, '--no-first-run',
    '--ignore-certificate-errors', '--disable-popup-blocking', '--disable-background-networking',
    '--disable-component-update', '--window-size=1200,1400', '--site-per-process',
    // No host but those of the rig is reached.
    `--host-resolver-rules=MAP *.test 127.0.0.1:${rig.server.port}, MAP * ~NOTFOUND, EXCLUDE 127.0.0.1`,
    '--disable-features=HttpsUpgrades,HttpsFirstBalancedModeAutoEnable,HttpsFirstBalancedMode,'
    + 'LocalNetworkAccessChecks,BackForwardCache',
    'about:blank'], { stdio: ['ignore', 'ignore', 'pipe'] });
}

// An event: of a target that is to be watched, of a document that scripts can run in, or one that is recorded.
function take(message) {
  const { method, params, sessionId } = message;
  if (method === 'Target.attachedToTarget') attach(params);
  if (method === 'Runtime.executionContextCreated' && params.context.auxData?.isDefault)
    contexts.set(params.context.auxData.frameId, { id: params.context.uniqueId, sessionId });
  const isPanel = sessions.get(sessionId)?.url.startsWith('devtools');
  if (isRecording && !isPanel && RECORDED.test(method) && !MANY.test(method)) log({ t: Date.now() / 1000, ...message });
}

function attach({ sessionId, targetInfo }) {
  sessions.set(sessionId, targetInfo);
  const ask = (method, params = {}) => connection.send(method, params, { sessionId }).catch(() => {});
  if (WALKED.test(targetInfo.type) && !targetInfo.url.startsWith('devtools')) {
    for (const domain of ['Network', 'Page', 'Runtime']) ask(`${domain}.enable`);
    ask('Target.setAutoAttach', { autoAttach: true, waitForDebuggerOnStart: true, flatten: true });
  }
  ask('Runtime.runIfWaitingForDebugger');
}

function sessionOf(target) {
  return [...sessions].find(([, info]) => info.targetId === target)?.[0];
}

async function sessionSoon(target) {
  for (let i = 0; i < 500 && !sessionOf(target); i++) await sleep(20);
  return sessionOf(target);
}

// What a script in a frame gives.
async function evaluate(frame, expression) {
  const context = contexts.get(frame);
  if (!context) return undefined;
  const answer = await connection.send('Runtime.evaluate', {
    expression, uniqueContextId: context.id, awaitPromise: true, returnByValue: true, userGesture: true,
  }, { sessionId: context.sessionId });
  return answer.result.value;
}

// The same in the developer tools of a tab.
async function evaluateInPanel(tab, expression) {
  return connection.send('Runtime.evaluate', { expression, awaitPromise: true, returnByValue: true },
    { sessionId: sessionOf(panels.get(tab)) });
}

// A tab, with its developer tools open and keeping their log over navigations.
async function openTab() {
  const { targetId } = await connection.send('Target.createTarget', { url: 'about:blank' });
  await sessionSoon(targetId);
  const address = `devtools://devtools/bundled/devtools_app.html?ws=${new URL(endpoint).host}/devtools/page/${targetId}`;
  const panel = await connection.send('Target.createTarget', { url: `${address}&panel=network` });
  panels.set(targetId, panel.targetId);
  await sessionSoon(panel.targetId);
  for (let i = 0; i < 60; i++) {
    await sleep(200);
    const { result } = await evaluateInPanel(targetId, `(async () => {
      const common = await import('devtools://devtools/bundled/core/common/common.js');
      const sdk = await import('devtools://devtools/bundled/core/sdk/sdk.js');
      const logs = await import('devtools://devtools/bundled/models/logs/logs.js');
      if (!sdk.TargetManager.TargetManager.instance().targets().length) throw 'no target';
      logs.NetworkLog.NetworkLog.instance();
      common.Settings.Settings.instance().moduleSetting('network-log.preserve-log').set(true);
      return 'ready';
    })()`);
    if (result?.value === 'ready') break;
  }
  await sleep(700);
  return targetId;
}

// A page says by its title that it is done.
async function settled(tab) {
  for (let i = 0; i < 120; i++) {
    if (await evaluate(tab, 'document.title').catch(() => '') === 'done') break;
    await sleep(50);
  }
  await sleep(900);
}

async function go(tab, url) {
  await connection.send('Page.navigate', { url }, { sessionId: sessionOf(tab) });
  await sleep(150);
  await settled(tab);
}

async function click(tab, id) {
  await evaluate(tab, `document.getElementById('${id}').click()`);
  await sleep(400);
  await settled(tab);
}

async function walk() {
  const first = await openTab();
  for (const url of ['https://track.test/', 'https://pay.test/', 'https://news.test/']) await go(first, url);
  const second = await openTab();
  await go(second, 'https://blog.test/');
  await click(first, 'self');
  await go(first, 'https://news.test/');
  await click(first, 'bounce');
  await evaluate(first, `fetch('/via-sw').then((answer) => answer.text())`);
  await sleep(300);
  await grantAccess(first);
  await evaluate(first, `document.getElementById('form').submit()`);
  await sleep(400);
  await settled(first);
  const third = await openTab();
  for (const url of ['https://widget.test/', 'https://shop.test/', 'http://plain.test/', 'https://news.test/'])
    await go(third, url);
}

// A user clicks on the button in the frame of pay, which requests storage access.
async function grantAccess(tab) {
  await connection.send('Browser.setPermission', { permission: { name: 'storage-access' }, setting: 'granted',
    origin: 'https://shop.test', embeddedOrigin: 'https://pay.test' }).catch((fault) => console.error(fault.message));
  await connection.send('Target.activateTarget', { targetId: tab });
  await connection.send('Page.bringToFront', {}, { sessionId: sessionOf(tab) });
  await sleep(400);
  await evaluate(tab, 'scrollTo(0, 0)');
  const corner = (id) => `JSON.stringify((it => [it.left, it.top])(document.getElementById('${id}').getBoundingClientRect()))`;
  const outer = JSON.parse(await evaluate(tab, corner('pay')));
  for (const frame of contexts.keys()) {
    if (await evaluate(frame, 'location.href').catch(() => '') !== 'https://pay.test/frame') continue;
    const inner = JSON.parse(await evaluate(frame, corner('b')));
    for (const type of ['mousePressed', 'mouseReleased']) {
      await connection.send('Input.dispatchMouseEvent', { type, x: outer[0] + inner[0] + 12, y: outer[1] + inner[1] + 12,
        button: 'left', clickCount: 1 }, { sessionId: sessionOf(tab) });
    }
    await sleep(800);
    console.error('storage access:', await evaluate(frame, 'window.got'));
  }
}

// The developer tools write their own HAR.
async function writeHars() {
  let number = 0;
  for (const tab of panels.keys()) {
    number += 1;
    for (const sanitize of [false, true]) {
      const answer = await evaluateInPanel(tab, `(async () => {
        const har = await import('devtools://devtools/bundled/models/har/har.js');
        const logs = await import('devtools://devtools/bundled/models/logs/logs.js');
        const requests = logs.NetworkLog.NetworkLog.instance().requests();
        return JSON.stringify({ log: await har.Log.Log.build(requests, { sanitize: ${sanitize} }) });
      })()`);
      if (answer.exceptionDetails) console.error(JSON.stringify(answer.exceptionDetails).slice(0, 500));
      else write(out, `tab${number}${sanitize ? '-sanitized' : ''}.har`, JSON.parse(answer.result.value));
    }
  }
}
