// The languages of the page in the browser: the menu, what it keeps, and what it leaves as it is.
import { count, focused, has, is, isShown, open, page, reload, text, valueOf, write }
  from './drive.js';

const HEADS = {
  en: 'In lockstep', de: 'Im Gleichtakt', fr: 'En synchrone', es: 'En sincronía',
  'zh-Hans': '同步执行',
};

const languageOfPage = () => page.evaluate('document.documentElement.lang');

async function choose(tag) {
  await page.choose('#language', tag);
  is(`the page is in ${tag}`,
    await page.until(`document.documentElement.lang === ${JSON.stringify(tag)}`, 5), true);
}

// By the keyboard, as a menu of the browser's.
export async function testLanguageMenu() {
  await open();
  is('English at first', `${await languageOfPage()} ${await valueOf('#language')}`, 'en en');
  is('its name', await page.evaluate('document.getElementById("language").ariaLabel'), 'Language');
  is('languages', await count('#language option'), 5);
  await page.evaluate('document.getElementById("language").focus()');
  await page.press('d', 'KeyD', 'd');
  await has('German by a key', '#tab-lockstep', HEADS.de);
  is('its name in German', await focused(), 'language');
  is('the title', await page.evaluate('document.title'), 'PRAM-Spielplatz');
  await reload();
  is('the choice is kept', `${await languageOfPage()} ${await text('#tab-lockstep')}`,
    `de ${HEADS.de}`);
  await choose('en');
  await has('English again', '#step-on', 'Step ▶');
  is('the title again', await page.evaluate('document.title'), 'PRAM playground');
}

// What is written, chosen and shown stays, and all of it is said anew.
export async function testLanguageOfWork() {
  await open('#example=sum.pardo');
  const program = await valueOf('#text');
  await write(program.replace('n = 8', 'n = 16'));
  await has('a fault', '#fault', 'too few without');
  await choose('fr');
  await has('the fault in French', '#fault', 'Ligne 9\u00a0: le tableau reçoit trop de valeurs');
  await page.click('#undo-text');
  await has('the undo is there', '#answer', 'Sa réponse\u00a0: fini après 66 étapes.');
  for (let k = 0; k < 3; k += 1) await page.click('#step-on');
  const line = await text('#plain-said');
  await choose('de');
  is('the same line', await text('#plain-said'), 'Zeile 15: end. P0-3, 4 von 4, sind aktiv mit ' +
    'round = 1. Gemacht bisher: 3 Zeilen, 20 Schritte der Maschine.');
  is('the same step', await valueOf('#step'), '3');
  await choose('fr');
  is('as it was', await text('#plain-said'), line);
  await page.choose('#lesson', 'exercise 2');
  await page.click('#judge');
  await has('a verdict', '#lesson-said', 'Pas encore, sur l’entrée 1 de');
  await choose('es');
  await has('the lesson', '#lesson-title', 'Ejercicio 2 de 20: duplicar');
  await has('the verdict', '#lesson-said', 'Todavía no, con la entrada 1 de');
  await has('the program of the menu', '#example option:checked', 'Ejercicio 2');
  is('the program itself', (await valueOf('#text')).split('\n', 1)[0], '; Exercise 2: double');
  await choose('en');
  await has('the verdict in English', '#lesson-said', 'Not yet, on input 1 of');
}

export async function testLanguagesOfViews() {
  for (const [tag, head] of Object.entries(HEADS)) {
    await open('#example=sum.pardo&view=workers&workers=3&acts=0.1.2*64~l2~0.1*80~t1~s0');
    await choose(tag);
    await has(`tabs in ${tag}`, '#tab-lockstep', head);
    for (const width of [360, 1280]) {
      await page.resize(width, 900);
      for (const view of ['workers', 'lockstep']) {
        await page.click(`#tab-${view}`);
        const wide = await page.evaluate('document.documentElement.scrollWidth');
        is(`${view} in ${tag} fits ${width}`, wide <= width || wide, true);
        const cut = await page.evaluate(`[...document.querySelectorAll('button')]
          .filter((one) => one.scrollWidth > one.clientWidth + 1)
          .map((one) => one.textContent).join()`);
        is(`buttons in ${tag} on ${width}`, cut, '');
      }
    }
  }
  await choose('en');
}

// The browser's first language that the page has, where none was chosen.
export async function testLanguageOfBrowser() {
  const userAgent = await page.evaluate('navigator.userAgent');
  const forget = 'localStorage.removeItem("kaolinsilk language")';
  for (const [accepted, wanted] of [['it,fr-CH,en', 'fr'], ['zh-CN', 'zh-Hans'], ['it', 'en'],
    ['en-GB,de', 'en']]) {
    await page.evaluate(forget);
    await page.call('Emulation.setUserAgentOverride', { userAgent, acceptLanguage: accepted });
    await open('#example=sum.pardo');
    is(`of ${accepted}`, `${await languageOfPage()} ${await text('#tab-lockstep')}`,
      `${wanted} ${HEADS[wanted]}`);
  }
  await page.call('Emulation.setUserAgentOverride', { userAgent, acceptLanguage: 'en-US' });
}

export async function testLanguageInFrame() {
  await page.resize(960, 540);
  await page.evaluate('document.documentElement.setAttribute("data-old", "")');
  await open('#embed=1&example=sum.pardo&view=workers&workers=3');
  is('the menu is there', await isShown('#language'), true);
  const top = await page.evaluate(
    'document.getElementById("tab-lockstep").getBoundingClientRect().top');
  is('the machine begins above', top < 20 || top, true);
  await choose('de');
  await has('the machine in German', '#tab-workers', 'Durch Arbeiter');
  const over = await page.evaluate(`(() => {
    const [menu, tab] = ['language', 'tab-workers'].map((id) =>
      document.getElementById(id).getBoundingClientRect());
    return menu.left < tab.right && menu.top < tab.bottom;
  })()`);
  is('the menu is beside the tabs', over, false);
  await choose('en');
  await page.resize(1280, 900);
}
