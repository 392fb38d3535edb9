// What is seen of a box that scrolls. It is remembered: a browser that is asked while the page is being painted lays the whole page
// out at once, and so again after each further change.

export class Scroller {
  // `onChange` is called where something else is seen.
  constructor(box, onChange = () => {}) {
    this.box = box;
    const seen = () => { if (this.look()) onChange(); };
    box.addEventListener('scroll', seen);
    new ResizeObserver(seen).observe(box);
    this.look();
  }

  // Asks the browser. Whether something changed.
  look() {
    const { scrollTop: top, scrollLeft: left, clientHeight: height } = this.box;
    const lineHeight = parseFloat(getComputedStyle(this.box).lineHeight) || 20;
    const isOther = top !== this.top || left !== this.left || height !== this.height || lineHeight !== this.lineHeight;
    Object.assign(this, { top, left, height, lineHeight });
    return isOther;
  }

  scrollTo(top) {
    if (top === this.top) return;
    this.box.scrollTop = top;
    this.top = this.box.scrollTop;
  }

  // What is inside became shorter, so the browser may have scrolled.
  shrink() {
    if (this.top > 0) this.look();
  }
}
