// What leaves the page: links, frames for other pages, the picture of the store as a file, and print.
'use strict';

class Sharing {
  // `bench` has the program, its run and its position.
  constructor(bench) {
    Object.assign(this, { bench, asked: 0 });
    $('share').onclick = () => this.share();
    $('embed').onclick = () => this.showEmbed();
    $('copy-frame').onclick = () => this.copy($('frame').value, 'The frame is copied.');
    $('save-figure').onclick = () => this.saveFigure();
    addEventListener('beforeprint', () => this.print());
  }

  async link() {
    const { view, at, carried } = this.bench, fragment = await fragmentOf(this.bench.setting(), carried.version, { view, step: at });
    return location.href.split(/[?#]/)[0] + fragment;
  }

  // Puts the link into the address, where no later one was asked for while it was made.
  async showLink() {
    const asked = ++this.asked, link = await this.link();
    if (asked === this.asked) setAddress(link);
    return link;
  }

  async copy(text, told) {
    try {
      await navigator.clipboard.writeText(text);
      this.bench.toast(told);
    } catch {
      this.bench.toast('This browser does not copy: take the link from the address of this page.');
    }
  }

  async share() {
    const { at } = this.bench, link = await this.showLink();
    await this.copy(link, `The link is copied: this program at position ${at}.`);
  }

  async showEmbed() {
    const [page, fragment] = (await this.link()).split('#');
    $('frame').value = `<iframe src="${page}?embed#${fragment.replaceAll('&', '&amp;')}" title="ROOPL++ program" width="100%" height="520" `
      + 'style="border:1px solid #767e8a;border-radius:8px" loading="lazy"></iframe>';
    $('embedding').showModal();
    $('frame').select();
  }

  // The picture of the store by itself, in the light colours, with its style inside.
  figure() {
    const { drawn, width, height } = this.bench.picture.draw(this.bench.transport.at, true), root = document.documentElement, { theme } = root.dataset;
    root.dataset.theme = 'light';
    const colours = getComputedStyle(root), colour = (_, name) => colours.getPropertyValue(name).trim();
    const style = this.bench.carried.figure.replace(/var\((--[\w-]+)\)/g, colour);
    root.dataset.theme = theme;
    drawn.setAttribute('width', width);
    drawn.setAttribute('height', height);
    drawn.prepend(svg('style', {}, style));
    return drawn;
  }

  saveFigure() {
    if (!this.bench.picture) return;
    const url = URL.createObjectURL(new Blob([this.figure().outerHTML], { type: 'image/svg+xml' }));
    made('a', { href: url, download: `store-${this.bench.transport.at}.svg` }).click();
    setTimeout(() => URL.revokeObjectURL(url), 1000);
  }

  print() {
    if (!this.bench.picture) return;
    const { carried, editor } = this.bench, lines = editor.text.split('\n').map((line, at) => `${String(at + 1).padStart(3)}  ${line}`);
    const told = `The store at position ${this.bench.spoken()}. ROOPL++ ${carried.version}.`;
    $('printed').replaceChildren(made('h1', { textContent: $('picked').textContent }),
      made('figure', {}, this.figure(), made('figcaption', { textContent: told })), made('pre', { textContent: lines.join('\n') }));
  }
}

// Changes the address, where the page has one of its own.
function setAddress(address) {
  try { history.replaceState(null, '', address); } catch { /* in a frame without one */ }
}
