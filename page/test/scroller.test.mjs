// What is seen of a box that scrolls: when the browser is asked, and when somebody is told. The browser is played.
import assert from 'node:assert/strict';
import { test } from 'node:test';
import { Scroller } from '../scroller.js';

const MOST = 300;

// A box of 100 pixels that can be scrolled by MOST. `asked` counts how often it was asked for its place.
function played() {
  const box = {
    asked: 0, told: 0, real: 0, scrollLeft: 0, clientHeight: 100, heard: {},
    get scrollTop() { box.asked += 1; return box.real; },
    set scrollTop(top) { box.real = Math.min(top, MOST); },
    addEventListener: (kind, act) => { box.heard[kind] = act; },
  };
  globalThis.ResizeObserver = class {
    constructor(act) { box.heard.resize = act; }

    observe() {}
  };
  globalThis.getComputedStyle = () => ({ lineHeight: '20px' });
  const scroller = new Scroller(box, () => { box.told += 1; });
  box.asked = 0;
  return { box, scroller };
}

const seen = ({ top, height, lineHeight }) => [top, height, lineHeight];

test('what is seen is known without asking', () => {
  const { box, scroller } = played();
  assert.deepEqual(seen(scroller), [0, 100, 20]);
  scroller.scrollTo(0);
  scroller.shrink();
  assert.equal(box.asked, 0);
});

test('it is scrolled no further than it goes', () => {
  const { box, scroller } = played();
  scroller.scrollTo(1000);
  assert.deepEqual([box.real, ...seen(scroller)], [MOST, MOST, 100, 20]);
});

test('somebody is told where something else is seen, and of nothing that they did themselves', () => {
  const { box, scroller } = played();
  scroller.scrollTo(200);
  box.heard.scroll();
  assert.equal(box.told, 0);
  box.real = 80;
  box.heard.scroll();
  assert.deepEqual([box.told, ...seen(scroller)], [1, 80, 100, 20]);
  box.clientHeight = 50;
  box.heard.resize();
  assert.deepEqual([box.told, ...seen(scroller)], [2, 80, 50, 20]);
});

test('where less is inside, the place is asked for anew', () => {
  const { box, scroller } = played();
  scroller.scrollTo(200);
  box.real = 40;
  scroller.shrink();
  assert.deepEqual(seen(scroller), [40, 100, 20]);
});
