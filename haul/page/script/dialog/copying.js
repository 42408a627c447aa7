/** Buttons that copy a text. */
import { element, fill } from '../elements.js';

/**
 * Makes a button with a place for what is said when it is pressed.
 * @type {(act: string, text: string) => any}
 */
export const copyButton = (act, text) => element('span', { class: 'copying' },
  element('button', { type: 'button', 'data-act': act }, text),
  element('span', { class: 'copied', role: 'status' }));

/**
 * Shows a text and selects it.
 * @type {(said: Element, text: string, what: string) => void}
 */
const selectText = (said, text, what) => {
  const area = element('textarea', { readonly: true, rows: 6, 'aria-label': what });
  fill(said, `The browser doesn’t copy. This is the ${what}: `, area);
  area.value = text;
  area.select();
  area.focus({ preventScroll: true });
};

/**
 * Copies a text, and says so beside the button. If the browser doesn't copy, the text is selected there.
 * @type {(text: string, what: string, button: any) => Promise<void>}
 */
export const copyText = async (text, what, button) => {
  const said = button.nextSibling;
  try {
    await navigator.clipboard.writeText(text);
    fill(said, `The ${what} is copied.`);
  } catch {
    selectText(said, text, what);
  }
};

/**
 * Removes what was said in a dialog when something else is pressed or gets the focus.
 * @type {(dialog: HTMLElement) => void}
 */
export const forgetCopies = dialog => {
  const forget = ({ target }) => {
    for (const said of dialog.querySelectorAll('.copied')) {
      if (!said.parentNode.contains(target)) fill(said);
    }
  };
  dialog.addEventListener('pointerdown', forget);
  dialog.addEventListener('focusin', forget);
};
