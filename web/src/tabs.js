// The two views as tabs.
import { byId } from './dom.js';

const VIEWS = ['lockstep', 'workers'];

export function openTabs(onChange) {
  const tabs = VIEWS.map((view) => byId(`tab-${view}`));

  function show(view) {
    tabs.forEach((tab, k) => {
      const isShown = VIEWS[k] === view;
      tab.setAttribute('aria-selected', String(isShown));
      tab.tabIndex = isShown ? 0 : -1;
      byId(VIEWS[k]).hidden = !isShown;
    });
  }

  tabs.forEach((tab, k) => {
    tab.addEventListener('click', () => onChange(VIEWS[k]));
    tab.addEventListener('keydown', (event) => {
      if (event.key !== 'ArrowLeft' && event.key !== 'ArrowRight') return;
      event.stopPropagation();
      tabs[1 - k].focus();
      onChange(VIEWS[1 - k]);
    });
  });
  return { show };
}
