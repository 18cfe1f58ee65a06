// The nine sites of the rig: what each address answers. Numbers in values of cookies tell one answer from another.

const FOR_ALL = '; Secure; SameSite=None; Max-Age=31536000';
const IN_PARTITION = FOR_ALL + '; Partitioned';
const PIXEL = Buffer.from('R0lGODlhAQABAIAAAAAAAP///yH5BAEAAAAALAAAAAABAAEAAAIBRAA7', 'base64');
const TITLED = '<script>document.title = "done"</script>';

let serial = 100;

const page = (title, body) => ({
  type: 'text/html; charset=utf-8',
  body: `<!doctype html><meta charset=utf-8><title>${title}</title><body><h1>${title}</h1>${body}`,
});
const text = (body, type = 'text/plain') => ({ type, body });
const json = (body) => text(body, 'application/json');
const pixel = { type: 'image/gif', body: PIXEL };
const later = (milliseconds) => `<script>setTimeout(() => { document.title = 'done' }, ${milliseconds})</script>`;

// What the pages of news and shop embed.
const thirdParties = (from) => `
<script src="https://cdn.test/lib.js"></script>
<img src="https://track.test/px?from=${from}">
<iframe id=ads src="https://ads.test/slot?on=${from}" width=300 height=120></iframe>
<iframe id=chat src="https://widget.test/chat" width=300 height=120></iframe>`;

const NEWS_SCRIPT = `<script>
document.cookie = 'js=1; Secure; SameSite=Lax';
localStorage.setItem('visits', '1');
(async () => {
  await fetch('https://api.news.test/me', { credentials: 'include' });
  await fetch('https://track.test/beacon?kind=with', { credentials: 'include', mode: 'cors' }).catch(() => 0);
  await fetch('https://track.test/beacon?kind=without').catch(() => 0);
  await fetch('https://track.test/beacon?kind=post',
    { method: 'POST', credentials: 'include', headers: { 'X-A': '1' }, body: 'x' }).catch(() => 0);
  navigator.sendBeacon('https://track.test/beacon?kind=send');
  new Image().src = 'https://track.test/hop?n=1';
  document.title = 'done';
})()</script>`;

const SHOP_BODY = `
<iframe id=pay src="https://pay.test/frame" width=400 height=160 allow="storage-access"></iframe>
<iframe sandbox="allow-scripts" src="https://widget.test/boxed" width=200 height=60></iframe>
<form id=form method=post action="https://pay.test/checkout"><input name=a value=b></form>
<script>
localStorage.setItem('basket', '3');
navigator.serviceWorker.register('/sw.js').then(() => navigator.serviceWorker.ready)
  .then(() => setTimeout(() => { document.title = 'done' }, 700)).catch(() => { document.title = 'done' });
</script>`;

const SERVICE_WORKER = `
self.addEventListener('install', (event) => self.skipWaiting());
self.addEventListener('activate', (event) => event.waitUntil(clients.claim()));
self.addEventListener('fetch', (event) => {
  if (new URL(event.request.url).pathname === '/via-sw')
    event.respondWith(fetch('https://shop.test/sw-origin', { credentials: 'include' }));
});`;

const PAY_FRAME = `<button id=b style="width: 200px; height: 60px">grant</button><script>
document.getElementById('b').onclick = async () => {
  try { await document.requestStorageAccess(); window.got = 'ok' } catch (fault) { window.got = String(fault) }
  await fetch('https://pay.test/balance', { credentials: 'include' });
  window.done = 1;
};</script>`;

const CHAT = `<script>
document.cookie = 'tab=1; Secure; SameSite=None; Partitioned';
localStorage.setItem('who', localStorage.getItem('who') || 'w' + Math.random());
fetch('/messages').then((answer) => answer.text());
</script>`;

// What an address answers: { set, status, location, headers, allows, answer }. `cookie` is what the request was sent with.
export function answerOf(url, cookie) {
  // A cookie that is set where the request has none of its name.
  const once = (name, rest) => {
    const has = (cookie || '').split('; ').some((pair) => pair.startsWith(name + '='));
    return has ? [] : [`${name}=${name}${serial++}${rest}`];
  };
  const hop = () => Number(url.searchParams.get('n'));
  const sites = {
    'news.test/': () => ({
      set: [...once('sid', '; Secure; HttpOnly; SameSite=Lax'),
        ...once('theme', '; Path=/; Expires=Wed, 09 Jun 2027 10:18:14 GMT'),
        ...once('strict', '; Secure; SameSite=Strict')],
      answer: page('News', thirdParties('news') + `
<a id=bounce href="https://track.test/bounce?to=https://shop.test/landing">shop</a>
<a id=self href="https://news.test/story">story</a>` + NEWS_SCRIPT),
    }),
    'news.test/story': () => ({
      set: [`sid=sid${serial++}; Secure; HttpOnly; SameSite=Lax`, 'last=story; Path=/story'],
      answer: page('Story', `<img src="https://track.test/px?from=story"><img src="/logo.gif">
<iframe srcdoc="<img src=https://track.test/px?from=srcdoc>"></iframe>` + later(300)),
    }),
    'news.test/logo.gif': () => ({ set: ['logo=1'], headers: { 'cache-control': 'max-age=3600' }, answer: pixel }),
    'api.news.test/me': () => ({
      set: [...once('api', '; Domain=news.test; Secure; SameSite=Lax; Path=/'), 'bad=1; Domain=test',
        'worse=1; SameSite=None'],
      allows: true, answer: json('{}'),
    }),
    'shop.test/': () => ({
      set: once('basket', '; Secure; HttpOnly; SameSite=Lax; Path=/'),
      answer: page('Shop', thirdParties('shop') + SHOP_BODY),
    }),
    'shop.test/landing': () => sites['shop.test/'](),
    'shop.test/sw.js': () => ({ answer: text(SERVICE_WORKER, 'text/javascript') }),
    'shop.test/sw-origin': () => ({ set: ['sw=1; Secure'], answer: json('{}') }),
    'pay.test/': () => ({
      set: [...once('wallet', FOR_ALL), ...once('login', '; Secure; HttpOnly; SameSite=Lax; Path=/')],
      answer: page('Pay', TITLED),
    }),
    'pay.test/checkout': () => ({ set: ['paid=1; Secure; SameSite=Lax; Path=/'], answer: page('Checkout', TITLED) }),
    'pay.test/frame': () => ({ set: once('payp', IN_PARTITION), answer: page('pay frame', PAY_FRAME) }),
    'pay.test/balance': () => ({ set: ['seen=1' + FOR_ALL], answer: json('{}') }),
    'blog.test/': () => ({
      set: once('blog', '; Max-Age=86400'),
      answer: page('Blog', `<iframe id=chat src="https://widget.test/aba"></iframe>
<img src="https://track.test/px?from=blog"><iframe src="https://ads.test/slot?on=blog"></iframe>` + later(900)),
    }),
    'blog.test/inner': () => ({
      set: once('inner', IN_PARTITION),
      answer: page('inner', '<script>document.cookie = "innerjs=1; Secure; SameSite=None; Partitioned"</script>'),
    }),
    'widget.test/aba': () => ({
      set: once('chat', IN_PARTITION), answer: page('aba', '<iframe src="https://blog.test/inner"></iframe>'),
    }),
    'widget.test/chat': () => ({ set: once('chat', IN_PARTITION), answer: page('chat', CHAT) }),
    'widget.test/messages': () => ({ set: ['count=1' + IN_PARTITION], answer: json('[]') }),
    'widget.test/boxed': () => ({
      set: once('boxed', IN_PARTITION),
      answer: page('boxed', '<script>try { localStorage.x = 1 } catch (fault) {}</script>'),
    }),
    'widget.test/': () => ({
      set: once('profile', FOR_ALL),
      answer: page('Widget home', '<script>localStorage.setItem("who", "me")</script>' + TITLED),
    }),
    'ads.test/slot': () => ({
      set: [...once('ad', FOR_ALL), ...once('adp', IN_PARTITION), 'freq=2; Secure; SameSite=None', 'frag=1'],
      answer: page('ad', `<iframe src="https://track.test/sync?by=ads"></iframe>
<script src="https://cdn.test/lib.js"></script>`),
    }),
    'cdn.test/lib.js': () => ({
      set: once('cdn', FOR_ALL), headers: { 'cache-control': 'max-age=600' },
      answer: text('window.lib = 1', 'text/javascript'),
    }),
    'track.test/px': () => ({ set: once('uid', FOR_ALL), headers: { 'cache-control': 'no-store' }, answer: pixel }),
    'track.test/sync': () => ({
      set: [...once('uid', FOR_ALL), ...once('uidp', IN_PARTITION)],
      answer: page('sync', '<script>document.cookie = "jsuid=1; Secure; SameSite=None"</script>'),
    }),
    'track.test/beacon': () => ({
      set: once('uid', FOR_ALL), allows: url.searchParams.get('kind') !== 'without', answer: text(''),
    }),
    'track.test/hop': () => hop() < 3
      ? { set: [`hop${hop()}=1${FOR_ALL}`], status: 302, answer: text(''),
        location: `https://${hop() === 1 ? 'ads' : 'track'}.test/hop?n=${hop() + 1}` }
      : { answer: pixel },
    'ads.test/hop': () => ({
      set: ['adhop=1' + FOR_ALL], status: 302, location: 'https://track.test/hop?n=3', answer: text(''),
    }),
    'track.test/bounce': () => ({
      set: [...once('uid', FOR_ALL), 'bounced=1; Secure; SameSite=Lax; Path=/'], status: 302,
      location: url.searchParams.get('to'), answer: text(''),
    }),
    'track.test/': () => ({ set: once('uid', FOR_ALL), answer: page('Track home', TITLED) }),
    'plain.test/': () => ({
      set: once('plain', ''),
      answer: page('Plain', `<iframe src="https://widget.test/chat"></iframe>
<img src="http://track.test/px?from=plain">` + later(500)),
    }),
  };
  return (sites[url.hostname + url.pathname] || (() => ({ status: 404, answer: text('none') })))();
}
