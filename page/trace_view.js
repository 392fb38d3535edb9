// What a body did, line by line, beside the text of the source.
import { button, make, plural } from './dom.js';
import { endOf } from './words.js';

// The same line begun again and again, with nothing between, stands once.
function grouped(events) {
  const groups = [];
  for (const event of events) {
    const last = groups[groups.length - 1];
    if (last !== undefined && event.line === last.line && event.call === undefined && last.call === undefined) last.times += 1;
    else groups.push({ ...event, times: 1 });
  }
  return groups;
}

function eventView(event, context) {
  if (event.call !== undefined) {
    return make('li.call', button('.link', { onclick: () => context.choose(event.call) }, `calls ${event.name}`), make('span.number', ` call ${event.call}`));
  }
  return make('li', button('.link.line', { onclick: () => context.showLine(event.line), 'aria-label': `line ${event.line}` }, String(event.line)),
    make('code', context.lineText(event.line).trim()), event.times > 1 ? make('span.number', ` \u00d7${event.times}`) : null);
}

export function traceView(trace, context) {
  const left = trace.total - trace.events.length;
  return make('ol.trace', { tabindex: 0, 'aria-label': 'What the body did' },
    grouped(trace.events).map((event) => eventView(event, context)),
    left > 0 ? make('li.quiet', `and ${plural(left, 'more step')}; the numbers beside the source count all of them`) : null,
    make(`li.end${endOf(trace.end).isBad ? '.bad' : ''}`, endOf(trace.end).said));
}
