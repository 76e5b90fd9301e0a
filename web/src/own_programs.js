// One's own programs are renamed and deleted; a deletion is undone as long as the page stands.
import { byId, onClick, setHidden, setText } from './dom.js';
import { shortened } from './numbers.js';
import { phrase } from './words.js';

const MOST_CHARACTERS = 60;

// What the first line of a text that is a comment says.
export const sayingOf = (text) => /^[ \t]*;\s*(.*)/.exec(text.slice(0, 400))?.[1] ?? '';

export function nameOfDraft({ name, text }) {
  const [line] = text.slice(0, 400).trimStart().split('\n', 1);
  return shortened(name || sayingOf(text) || line.trim() || phrase('empty'), MOST_CHARACTERS);
}

// `onChange` hears that the drafts have changed.
export function openOwnPrograms(drafts, onChange) {
  const part = byId('rename-part');
  const field = byId('rename-name');
  let renamed;

  function close() {
    setHidden(part, true);
    byId('example').focus();
  }

  function rename() {
    drafts.rename(renamed, field.value.trim().slice(0, MOST_CHARACTERS));
    close();
    onChange();
  }

  function show() {
    const last = drafts.deleted.at(-1);
    setHidden(byId('deleted'), last === undefined);
    setText(byId('deleted-said'), last ? phrase('“{0}” is deleted.', nameOfDraft(last)) : '');
  }

  field.addEventListener('keydown', ({ key, isComposing }) => {
    if (key === 'Enter' && !isComposing) rename();
    if (key === 'Escape') close();
  });
  onClick('rename', rename);
  onClick('rename-not', close);
  onClick('undelete', () => {
    drafts.restore();
    show();
    onChange();
  });

  return {
    show,
    rename(draft) {
      renamed = draft.number;
      field.value = nameOfDraft(draft);
      setHidden(part, false);
      field.select();
    },
    delete(draft) {
      drafts.delete(draft.number);
      show();
      onChange();
    },
  };
}
