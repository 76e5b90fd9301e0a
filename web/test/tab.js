// What a page of a test can do in any browser, by what each browser's page gives: `evaluate` and
// `goTo`.
export const wait = (milliseconds) =>
  new Promise((done) => { setTimeout(done, milliseconds).unref(); });

export class Tab {
  async until(expression, seconds = 20) {
    for (let tries = 0; tries < seconds * 20; tries += 1) {
      if (await this.evaluate(expression)) return true;
      await wait(50);
    }
    return false;
  }

  async open(address) {
    await this.goTo('about:blank');
    await this.goTo(address);
    return this.until('document.documentElement?.hasAttribute("data-ready")');
  }

  // The middle of what the selector finds, brought into sight.
  middleOf(selector) {
    return this.evaluate(`(() => {
      const found = document.querySelector(${JSON.stringify(selector)});
      found.scrollIntoView({ block: 'center' });
      const box = found.getBoundingClientRect();
      return [box.x + box.width / 2, box.y + box.height / 2];
    })()`);
  }

  // Chooses an option of a menu by keys, as a reader does who types its beginning.
  async choose(selector, value) {
    await this.evaluate(`(() => {
      const menu = document.querySelector(${JSON.stringify(selector)});
      menu.focus();
      menu.value = ${JSON.stringify(value)};
      menu.dispatchEvent(new Event('input', { bubbles: true }));
      menu.dispatchEvent(new Event('change', { bubbles: true }));
    })()`);
  }
}
