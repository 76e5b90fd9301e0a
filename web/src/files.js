// A text of one's own from a file, which is chosen or dropped on the page.
import { byId, onClick, setText } from './dom.js';
import { isExercise } from './exercises.js';
import { withLines } from './text_lines.js';
import { phrase } from './words.js';

const MOST_BYTES = 67108864;

const decoder = new TextDecoder('utf-8', { fatal: true });

async function textOf(file) {
  if (file.size > MOST_BYTES) {
    return { why: phrase('{0} has more than 64 MB, which no text may have.', file.name) };
  }
  try {
    return { text: withLines(decoder.decode(await file.arrayBuffer())) };
  } catch (error) {
    return { why: error instanceof TypeError
      ? phrase('{0} is no text: its bytes are not UTF-8.', file.name)
      : phrase('{0} cannot be read.', file.name) };
  }
}

// A text that is none of the gallery is kept among one's own.
function draftOf({ drafts, examples }, text) {
  const isKnown = text === '' || examples.some((example) => example.text === text);
  return isKnown ? undefined : drafts.numberOf(text) ?? drafts.keep(text);
}

// An exercise begins; another text is a program. Tells why it does not.
function begin(app, text) {
  if (!isExercise(text)) {
    app.choose(text, { draft: draftOf(app, text) });
    return undefined;
  }
  try {
    app.lessons.beginOwn(text);
    return undefined;
  } catch (why) {
    if (!(why instanceof RangeError)) throw why;
    return why.message;
  }
}

async function show(app, file) {
  const { text, why } = await textOf(file);
  const trouble = why ?? begin(app, text);
  setText(byId('file-said'), trouble === why ? why ?? phrase('{0} is open.', file.name)
    : phrase('{0} cannot be opened: {1}.', file.name, trouble));
}

const hasFile = ({ dataTransfer }) => dataTransfer?.types.includes('Files');

export function openFiles(app) {
  const choice = byId('file');
  onClick('open-text', () => choice.click());
  choice.addEventListener('change', () => {
    const [file] = choice.files;
    if (file) show(app, file);
    choice.value = '';
  });
  document.addEventListener('dragover', (event) => hasFile(event) && event.preventDefault());
  document.addEventListener('drop', (event) => {
    if (!hasFile(event)) return;
    event.preventDefault();
    const [file] = event.dataTransfer.files;
    if (file) show(app, file);
  });
}
