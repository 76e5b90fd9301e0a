// What was solved, as the browser keeps it: by the lesson's name the text that was right.
const KEY = 'kaolinsilk solved';

export function solved() {
  try {
    return JSON.parse(localStorage.getItem(KEY)) ?? {};
  } catch {
    return {};
  }
}

// Where the browser keeps nothing marks are lost.
function keep(right) {
  try {
    localStorage.setItem(KEY, JSON.stringify(right));
  } catch {
    // What was said beside the button says that it was right.
  }
}

export const keepSolved = (name, text) => keep({ ...solved(), [name]: text });

// What was kept by other names, which are told by these.
export function renameSolved(names) {
  const right = solved();
  if (!Object.keys(right).some((name) => names.has(name))) return;
  keep(Object.fromEntries(Object.entries(right).map(([name, text]) =>
    [names.get(name) ?? name, text])));
}

// `onChange` hears that another page solved one.
export function listenToSolved(onChange) {
  window.addEventListener('storage', ({ key }) => key === KEY && onChange());
}
