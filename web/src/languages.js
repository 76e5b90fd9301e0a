// The languages of the page, English first. The browser is told them by their tags.
import { ENGLISH } from './words.js';

export const LANGUAGES = [
  { tag: ENGLISH, name: 'English' },
  { tag: 'de', name: 'Deutsch' },
  { tag: 'fr', name: 'Français' },
  { tag: 'es', name: 'Español' },
  { tag: 'zh-Hans', name: '中文' },
];
