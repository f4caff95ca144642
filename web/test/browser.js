// A headless Chromium, driven over a pair of pipes by the DevTools protocol. No package is needed.
'use strict';
const { spawn } = require('child_process');
const fs = require('fs');
const os = require('os');
const path = require('path');

class Browser {
  static async start(program) {
    const room = fs.mkdtempSync(path.join(os.tmpdir(), 'discgauze-page-'));
    const words = [
      '--headless=new', '--no-sandbox', '--disable-gpu', '--disable-dev-shm-usage', '--hide-scrollbars', '--remote-debugging-pipe', '--no-first-run', '--disable-extensions', '--disable-background-networking',
      '--force-device-scale-factor=1', '--force-prefers-reduced-motion', '--user-data-dir=' + path.join(room, 'profile'), 'about:blank',
    ];
    const child = spawn(program, words, { stdio: ['ignore', 'ignore', 'ignore', 'pipe', 'pipe'] });
    const b = new Browser(child, room);
    const { targetInfos } = await b.send('Target.getTargets');
    const page = targetInfos.find((t) => t.type === 'page');
    const { sessionId } = await b.send('Target.attachToTarget', { targetId: page.targetId, flatten: true });
    b.session = sessionId;
    await b.send('Page.enable');
    await b.send('Runtime.enable');
    await b.send('DOM.enable');
    return b;
  }

  constructor(child, room) {
    Object.assign(this, { child, room, session: null, last: 0, waiting: new Map(), problems: [] });
    let rest = Buffer.alloc(0);
    child.stdio[4].on('data', (data) => {
      rest = Buffer.concat([rest, data]);
      for (let end = rest.indexOf(0); end >= 0; end = rest.indexOf(0)) {
        this.heard(JSON.parse(rest.subarray(0, end).toString()));
        rest = rest.subarray(end + 1);
      }
    });
    child.on('error', (error) => this.failed(error));
    child.on('exit', () => this.failed(new Error('the browser has ended')));
  }

  failed(error) {
    for (const { refuse } of this.waiting.values()) refuse(error);
    this.waiting.clear();
  }

  heard(message) {
    const asked = this.waiting.get(message.id);
    if (asked) {
      this.waiting.delete(message.id);
      if (message.error) asked.refuse(new Error(asked.method + ': ' + message.error.message));
      else asked.give(message.result);
    }
    // What goes wrong on the page, or is asked of any network, is a fault of the page.
    if (message.method === 'Runtime.exceptionThrown') this.problems.push(message.params.exceptionDetails.exception?.description || message.params.exceptionDetails.text);
    if (message.method === 'Runtime.consoleAPICalled' && message.params.type === 'error') this.problems.push(message.params.args.map((a) => a.value || a.description).join(' '));
    if (message.method === 'Network.requestWillBeSent' && !/^(file|data|blob):/.test(message.params.request.url)) this.problems.push('asked for ' + message.params.request.url);
  }

  send(method, params = {}) {
    this.last += 1;
    const id = this.last;
    const message = { id, method, params };
    if (this.session && !method.startsWith('Browser.') && !method.startsWith('Target.')) message.sessionId = this.session;
    return new Promise((give, refuse) => {
      this.waiting.set(id, { give, refuse, method });
      this.child.stdio[3].write(JSON.stringify(message) + '\0');
    });
  }

  // What an expression comes to on the page.
  async ask(expression) {
    const { result, exceptionDetails } = await this.send('Runtime.evaluate', { expression, awaitPromise: true, returnByValue: true });
    if (exceptionDetails) throw new Error(expression + ': ' + (exceptionDetails.exception?.description || exceptionDetails.text));
    return result.value;
  }

  async until(expression, what) {
    for (let i = 0; i < 2400; i += 1) {
      if (await this.ask(expression)) return;
      await new Promise((go) => setTimeout(go, 25));
    }
    throw new Error('waited in vain for ' + (what || expression));
  }

  async open(file, width, height) {
    await this.send('Network.enable');
    await this.size(width, height);
    await this.send('Page.navigate', { url: 'file://' + file });
    await this.until('document.body && document.body.classList.contains("ready")', 'the page');
  }

  size(width, height) {
    return this.send('Emulation.setDeviceMetricsOverride', { width, height, deviceScaleFactor: 1, mobile: false });
  }

  // A click with the mouse in the middle of the one element that the selector names. It must be there, in sight and on top, as for a hand.
  async click(selector) {
    const at = await this.ask(`(() => {
      const found = [...document.querySelectorAll(${JSON.stringify(selector)})].filter((n) => n.getClientRects().length);
      if (!found.length) return 'there is no';
      found[0].scrollIntoView({ block: 'nearest', inline: 'nearest' });
      const box = found[0].getBoundingClientRect();
      const x = box.x + box.width / 2, y = box.y + box.height / 2;
      const top = document.elementFromPoint(x, y);
      if (!top || !(found[0] === top || found[0].contains(top))) return 'something lies over';
      return [x, y];
    })()`);
    if (typeof at === 'string') throw new Error(at + ' ' + selector);
    const [x, y] = at;
    const mouse = (type, more) => this.send('Input.dispatchMouseEvent', { type, x, y, ...more });
    await mouse('mouseMoved');
    await mouse('mousePressed', { button: 'left', clickCount: 1 });
    await mouse('mouseReleased', { button: 'left', clickCount: 1 });
  }

  async type(text) {
    await this.send('Input.insertText', { text });
  }

  text(selector) {
    return this.ask(`(document.querySelector(${JSON.stringify(selector)}) || { textContent: '' }).textContent`);
  }

  // Files dropped onto the page, as from a folder on the desktop.
  async drop(files) {
    const data = { items: [], files, dragOperationsMask: 1 };
    for (const type of ['dragEnter', 'dragOver', 'drop']) await this.send('Input.dispatchDragEvent', { type, x: 600, y: 400, data });
  }

  async picture(file) {
    const { data } = await this.send('Page.captureScreenshot', { format: 'png' });
    fs.writeFileSync(file, Buffer.from(data, 'base64'));
  }

  async stop() {
    const ended = new Promise((go) => this.child.once('exit', go));
    await this.send('Browser.close').catch(() => this.child.kill());
    await ended;
    fs.rmSync(this.room, { recursive: true, force: true });
  }
}

module.exports = Browser;
