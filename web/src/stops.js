// Lines at which playing stops, and the buttons for the line that the cursor is in.
import { byId, onClick, setDisabled, setText } from './dom.js';
import { grouped } from './numbers.js';
import { phrase } from './words.js';

export function openStops(editor, { onChange, toLine }) {
  const hear = () => {
    if (document.activeElement === editor.area) show();
  };

  function toggle(line) {
    if (!editor.stops.delete(line)) editor.stops.add(line);
    editor.draw();
    show();
    onChange();
  }

  function show() {
    const { line } = editor;
    setText(byId('to-line'), phrase('To line {0}', grouped(line)));
    setText(byId('stop-line'), editor.stops.has(line)
      ? phrase('No stop at line {0}', grouped(line)) : phrase('Stop at line {0}', grouped(line)));
    setDisabled(byId('no-stops'), editor.stops.size === 0);
  }

  document.addEventListener('selectionchange', hear);
  editor.area.addEventListener('keyup', hear);
  onClick('to-line', () => toLine(editor.line));
  onClick('stop-line', () => toggle(editor.line));
  onClick('no-stops', () => {
    editor.stops.clear();
    editor.draw();
    show();
    onChange();
  });
  show();
  return { toggle, show };
}
