// The programs in a menu: one's own, and those of examples/.
import { byId, make } from './dom.js';
import { shortened } from './numbers.js';
import { nameOfDraft, openOwnPrograms, sayingOf } from './own_programs.js';
import { english, phrase } from './words.js';

const NEW = 'new';
const LINKED = 'linked';
const RENAME = 'rename';
const DELETE = 'delete';
const SAMPLE = `; my program
pardo 1
rule common
const n = 4
procs i < n
shared A[n]
code
A[i] := i               ; each processor writes its number
`;

const isProgram = ({ name }) => name.endsWith('.pardo');

function titleOf(example) {
  const says = sayingOf(example.text);
  const name = example.name.replace('.pardo', '');
  return says === '' ? name : `${name}: ${shortened(says, 80)}`;
}

const titleOfDraft = (draft) => phrase('your own: {0}', nameOfDraft(draft));

const OWN = 'own ';
const valueOf = (draft) => OWN + draft.number;
const numberIn = (value) => (value.startsWith(OWN) ? Number(value.slice(OWN.length)) : undefined);
const optionOf = (value, title) => make('option', { value }, title);

// `choose` hears a text, and of an own program the number of its draft; `workNow` gives what stands
// in the editor.
export function openGallery({ examples, drafts, choose, workNow }) {
  const menu = byId('example');
  const ownPrograms = openOwnPrograms(drafts, () => show(workNow()));
  const group = make('optgroup', { label: english('Your own') });
  const groupOf = (label, isOf) => make('optgroup', { label },
    ...examples.filter(isOf).map((example) => optionOf(example.name, titleOf(example))));
  menu.replaceChildren(group, groupOf(english('Gallery, in pardo'), isProgram),
    groupOf(english('Gallery, for the machine itself'), (example) => !isProgram(example)));
  menu.addEventListener('change', () => {
    const example = examples.find((candidate) => candidate.name === menu.value);
    const draft = drafts.find(numberIn(menu.value));
    if (example) choose(example.text);
    else if (draft) choose(draft.text, draft.number);
    else if (menu.value === NEW) choose(SAMPLE);
    else change(menu.value);
  });

  // The program that is shown is renamed or deleted, and is still shown then.
  function change(how) {
    const own = ownOf(workNow());
    if (own && how === RENAME) ownPrograms.rename(own);
    if (own && how === DELETE) ownPrograms.delete(own);
    show(workNow());
  }

  function ownOf({ text, draft }) {
    const own = drafts.find(draft);
    return own?.text === text ? own : undefined;
  }

  function valueNow(work) {
    const example = examples.find((candidate) => candidate.text === work.text);
    const own = ownOf(work);
    if (own) return valueOf(own);
    return example?.name ?? (work.text === SAMPLE ? NEW : LINKED);
  }

  // What one that is none of these is called.
  function titleOfOther({ name, draft }) {
    const deleted = drafts.deleted.find(({ number }) => number === draft);
    if (deleted) return phrase('deleted: {0}', nameOfDraft(deleted));
    return name?.() ?? phrase('the program of this link');
  }

  // The menu names the program that stands in the editor.
  function show(work) {
    const value = valueNow(work);
    const linked = value === LINKED ? [optionOf(LINKED, titleOfOther(work))] : [];
    const changes = ownOf(work) ? [optionOf(RENAME, phrase('rename this program')),
      optionOf(DELETE, phrase('delete this program'))] : [];
    group.replaceChildren(...linked,
      ...drafts.list.map((draft) => optionOf(valueOf(draft), titleOfDraft(draft))),
      optionOf(NEW, phrase('a new program')), ...changes);
    menu.value = value;
    ownPrograms.show();
  }

  return { show };
}
