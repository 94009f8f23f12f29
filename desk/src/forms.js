// Small parts of the tools' forms.

import { MOST_WORD } from './hut.js';
import { escaped } from './picture.js';

/// A refusal, as words.js tells it.
export const told = ({ title, says, mend }) =>
  `<p class="refusal"><b>${escaped(title)}.</b> ${escaped(says)}</p><p class="mend">${escaped(mend)}</p>`;

/// A field for a number, with its label.
export const numberField = (id, label, value) =>
  `<label for="${id}">${label}</label><input type="number" min="0" step="1" id="${id}" value="${value}">`;

/// The number in a field. What is none counts as 0, and what no word can hold as the greatest word.
export const wholeIn = field => Math.min(Math.max(0, Math.floor(Number(field.value) || 0)), MOST_WORD);

/// Marks a field as the one that a refusal means, or no longer.
export function markField(field, wrong) {
  if (wrong) field.setAttribute('aria-invalid', 'true');
  else field.removeAttribute('aria-invalid');
}

/// Has a form do something when it is sent.
export function onSubmit(form, act) {
  form.addEventListener('submit', event => {
    event.preventDefault();
    act();
  });
}
