// A card for each worker and each twin: where it stands, and what may be done to it.
import { ACT, MOST_BODIES } from './acts.js';
import { byId, fit, make, setAttribute, setDisabled, setText } from './dom.js';
import { DOING } from './kinds.js';
import { bodyInWords } from './meaning.js';
import { english, phrase } from './words.js';

const ACTIONS = ['step', 'sleep', 'lose', 'twin', 'if'];

function makeCard(body, onAction) {
  const buttons = ACTIONS.map((action) => make('button', {
    type: 'button', 'data-action': action, click: () => onAction(action, body),
  }));
  return make('li', {},
    make('h4', {}, make('span', { class: 'dot' }), make('span')),
    make('p', { class: 'standing' }),
    make('div', { class: 'bar' }, ...buttons));
}

export function isGoing(row) {
  return row.doing !== DOING.LOST && row.doing !== DOING.DONE && row.doing !== DOING.CONFLICT;
}

// The state is the class of a card, too.
function stateOf(row, isAsleep) {
  if (row.doing === DOING.LOST) return english('lost');
  if (!isGoing(row)) return english('over');
  return isAsleep ? english('asleep') : english('awake');
}

// What the buttons of a card say, more words of it, and whether they do anything now.
function buttonsOf(row, isAsleep, isFull) {
  const going = isGoing(row);
  const lost = row.doing === DOING.LOST;
  return {
    step: [phrase('Step'), '', going && !isAsleep],
    sleep: [isAsleep ? phrase('Wake') : phrase('Sleep'), '', going],
    lose: [lost ? phrase('Return') : phrase('Lose'), '', true],
    twin: [phrase('Twin'), '', !isFull],
    if: [phrase('If lost?'),
      phrase('What if it is lost here, and the others go on to the end?'), going],
  };
}

function showCard(card, name, job, row, isAsleep, isFull) {
  const [heading, standing, bar] = card.children;
  const state = stateOf(row, isAsleep);
  setAttribute(card, 'class', `card worker${row.worker} ${state}`);
  setText(heading.firstElementChild, String(row.worker));
  setText(heading.lastElementChild, `${name}, ${phrase(state)}`);
  setText(standing, bodyInWords(job, row));
  setAttribute(standing, 'title', standing.textContent);
  const texts = buttonsOf(row, isAsleep, isFull);
  for (const button of bar.children) {
    const [text, more, isEnabled] = texts[button.dataset.action];
    setText(button, text);
    setAttribute(button, 'aria-label', `${phrase('{0}: {1}.', text, name)} ${more}`.trim());
    setAttribute(button, 'title', more);
    setDisabled(button, !isEnabled);
  }
}

export function openCards(onAction) {
  return {
    show(job, bodies, names, sleepers) {
      const cards = fit(byId('cards'), bodies.length, (body) => makeCard(body, onAction));
      const isFull = bodies.length >= MOST_BODIES;
      cards.forEach((card, body) =>
        showCard(card, names[body], job, bodies[body], sleepers.has(body), isFull));
    },
  };
}

export const actOfAction = (action, row, isAsleep) => {
  if (action === 'step') return ACT.GO;
  if (action === 'sleep') return isAsleep ? ACT.WAKE : ACT.SLEEP;
  if (action === 'twin') return ACT.TWIN;
  return row.doing === DOING.LOST ? ACT.BACK : ACT.LOSE;
};
