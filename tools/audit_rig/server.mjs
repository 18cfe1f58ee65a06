// The server of the nine sites: any host, TLS and plain http on one port. It logs what each request was really sent with.
import { execFileSync } from 'node:child_process';
import fs from 'node:fs';
import http from 'node:http';
import http2 from 'node:http2';
import net from 'node:net';
import path from 'node:path';
import { answerOf } from './sites.mjs';

const FIRST_OF_TLS = 0x16;

// A certificate of its own for all hosts of `.test`.
function certificate(folder) {
  const key = path.join(folder, 'key.pem');
  const cert = path.join(folder, 'cert.pem');
  execFileSync('openssl', ['req', '-x509', '-newkey', 'ec', '-pkeyopt', 'ec_paramgen_curve:prime256v1', '-nodes',
    '-days', '30', '-keyout', key, '-out', cert, '-subj', '/CN=rig', '-addext', 'subjectAltName=DNS:*.test'],
  { stdio: 'ignore' });
  return { key: fs.readFileSync(key), cert: fs.readFileSync(cert) };
}

export class Server {
  // `log` takes one object for each request.
  constructor(log) {
    this.log = log;
    this.count = 0;
  }

  async start(folder, port = 0) {
    const on = (scheme) => (request, response) => this.handle(scheme, request, response);
    this.tls = http2.createSecureServer({ ...certificate(folder), allowHTTP1: true }, on('https'));
    this.plain = http.createServer(on('http'));
    for (const server of [this.tls, this.plain]) {
      server.on('clientError', (error, socket) => socket.destroy());
      server.on('sessionError', () => {});
    }
    this.net = net.createServer((socket) => this.divide(socket));
    await new Promise((done) => this.net.listen(port, '127.0.0.1', done));
    this.port = this.net.address().port;
  }

  // A connection is TLS or plain, as its first byte says.
  divide(socket) {
    socket.on('error', () => {});
    socket.once('data', (bytes) => {
      socket.pause();
      socket.unshift(bytes);
      (bytes[0] === FIRST_OF_TLS ? this.tls : this.plain).emit('connection', socket);
      process.nextTick(() => socket.resume());
    });
  }

  handle(scheme, request, response) {
    const host = request.headers[':authority'] || request.headers.host;
    const url = new URL(`${scheme}://${host}${request.url}`);
    const cookie = request.headers.cookie ?? null;
    const isPreflight = request.method === 'OPTIONS' && Boolean(request.headers['access-control-request-method']);
    const found = answerOf(url, cookie);
    this.count += 1;
    this.log({ n: this.count, t: Date.now() / 1000, method: request.method, url: url.href, cookie, preflight: isPreflight });
    response.writeHead(isPreflight ? 204 : found.status || 200, this.headers(request, found, isPreflight));
    response.end(isPreflight ? undefined : found.answer.body);
  }

  headers(request, found, isPreflight) {
    const headers = { 'content-type': found.answer.type, 'x-n': String(this.count), ...found.headers };
    if (found.allows && request.headers.origin) {
      headers['access-control-allow-origin'] = request.headers.origin;
      headers['access-control-allow-credentials'] = 'true';
      headers['access-control-allow-headers'] = 'X-A, content-type';
      headers['access-control-allow-methods'] = 'GET, POST';
    }
    if (found.location) headers.location = found.location;
    if (found.set?.length && !isPreflight) headers['set-cookie'] = found.set;
    return headers;
  }

  // Ports 443 and 80 lead to the server, for a browser whose hosts all resolve to this machine.
  forward(ports = [443, 80]) {
    for (const port of ports) {
      net.createServer((socket) => {
        const other = net.connect(this.port, '127.0.0.1');
        socket.pipe(other).pipe(socket);
        socket.on('error', () => other.destroy());
        other.on('error', () => socket.destroy());
      }).listen(port, '127.0.0.1').on('error', (error) => console.error(`port ${port}: ${error.message}`));
    }
  }

  stop() {
    this.net.close();
  }
}
