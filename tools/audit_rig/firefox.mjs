// How the recorders start Firefox: a profile of its own, in which every host is this machine.
import { spawn } from 'node:child_process';
import fs from 'node:fs';
import path from 'node:path';

const PREFERENCES = {
  'network.dns.forceResolve': '127.0.0.1',
  'dom.security.https_first': false,
  'network.stricttransportsecurity.preloadlist': false,
  'browser.shell.checkDefaultBrowser': false,
  'datareporting.policy.dataSubmissionEnabled': false,
  'network.captive-portal-service.enabled': false,
  'network.connectivity-service.enabled': false,
  'app.update.enabled': false,
  'network.cookie.cookieBehavior': 5,
};

export function startFirefox(folder, words, preferences = {}) {
  const profile = path.join(folder, 'profile');
  fs.mkdirSync(profile);
  fs.writeFileSync(path.join(profile, 'user.js'), Object.entries({ ...PREFERENCES, ...preferences })
    .map(([name, value]) => `user_pref(${JSON.stringify(name)}, ${JSON.stringify(value)});\n`).join(''));
  return spawn('firefox-esr', ['--headless', '--no-remote', '--profile', profile, ...words],
    { stdio: ['ignore', 'ignore', 'pipe'], env: { ...process.env, HOME: folder, MOZ_HEADLESS: '1' } });
}
