// A press is a click only where what was pressed is still there when it is let go. So a part of the page in which something
// is held down is made anew after that.
const CAN_BE_PRESSED = 'a, button, input, label, select, summary';

export class Presses {
  // `onRelease` is called where a part waited until something was let go.
  constructor(onRelease) {
    this.held = null;
    this.isOwed = false;
    this.onRelease = onRelease;
    addEventListener('pointerdown', ({ target }) => { this.held = target.closest(CAN_BE_PRESSED); }, true);
    for (const end of ['pointerup', 'pointercancel', 'dragend', 'blur']) addEventListener(end, () => setTimeout(() => this.release()));
  }

  // The click of a press comes before this.
  release() {
    this.held = null;
    if (!this.isOwed) return;
    this.isOwed = false;
    this.onRelease();
  }

  // Whether a part has to wait.
  holds(part) {
    const isHeld = this.held !== null && part.contains(this.held);
    this.isOwed ||= isHeld;
    return isHeld;
  }
}
