// What a run begins with: the int fields of the main object as chips, and the limits of the run.
'use strict';

const NARROW = 1180, MOST_CHIPS = 4;
const isNumber = value => /^-?\d{1,10}$/.test(value) && Number(value) === (Number(value) | 0);
// The fields that hold numbers, with their values.
const intsOf = fields => fields.filter(([, value]) => isNumber(value));

class Inputs {
  // `onChange` hears that a run must begin again: because of a field, or of a limit.
  constructor(onChange) {
    Object.assign(this, { onChange, names: [], wanted: {}, limits: { ...USUAL }, isEmbedded: false });
    for (const name of Object.keys(USUAL)) $(name).onchange = () => { this.limits[name] = $(name).value; this.onChange('limit'); };
    $('usual').onclick = () => { this.setLimits(USUAL); this.onChange('limit'); };
    $('limits').onsubmit = event => event.preventDefault();
    $('limits').onkeydown = event => {
      if (event.key !== 'Escape') return;
      this.openLimits(false);
      $('gear').focus();
    };
    $('gear').onclick = () => this.openLimits($('limits').hidden);
    addEventListener('resize', () => this.place());
  }

  setLimits(limits) {
    for (const name of Object.keys(USUAL)) $(name).value = this.limits[name] = String(limits[name] ?? this.limits[name]);
  }

  openLimits(isOpen) {
    $('limits').hidden = !isOpen;
    $('gear').setAttribute('aria-expanded', isOpen);
    if (isOpen) $('limits').querySelector('input').focus();
  }

  // Forgets the fields of the program that was there, and what they are to begin with.
  reset(input) {
    [this.names, this.wanted] = [[], input ?? {}];
    $('chips').replaceChildren();
  }

  // The numbers of the chips, without those that are 0.
  numbers() {
    return this.names.map(name => [name, $(`field-${name}`).value.trim()]).filter(([, value]) => value !== '' && value !== '0');
  }

  // The field whose value is no number, if any.
  bad() { return this.numbers().find(([, value]) => !isNumber(value)); }

  markBad(bad) { for (const name of this.names) $(`field-${name}`).toggleAttribute('aria-invalid', name === bad?.[0]); }

  // Makes a chip for each field; the number in a chip of the same name stays.
  show(names) {
    const kept = { ...Object.fromEntries(this.numbers()), ...this.wanted };
    this.wanted = {};
    if (names.join() === this.names.join() && names.length) return;
    this.names = names;
    $('chips').replaceChildren(...names.map(name => this.chip(name, kept[name] ?? '0')));
    this.place();
  }

  chip(name, value) {
    const box = made('input', { id: `field-${name}`, value, inputMode: 'numeric', autocomplete: 'off' });
    const chip = made('label', { className: 'chip' }, name, box);
    const fit = () => {
      box.style.width = `${Math.max(2, box.value.length) + 1.5}ch`;
      chip.classList.toggle('set', !['', '0'].includes(box.value.trim()));
    };
    box.oninput = fit;
    box.onchange = () => this.onChange('field');
    fit();
    return chip;
  }

  // If there is no space next to the keys, the chips are above the limits.
  place() {
    const isNarrow = innerWidth <= NARROW || this.names.length > MOST_CHIPS || this.isEmbedded, isNone = this.names.length === 0;
    if (isNarrow) $('chips-place').append($('chips'));
    else $('start-with').after($('chips'));
    $('chips-place').hidden = !isNarrow || isNone;
    $('start-with').hidden = isNarrow || isNone;
  }
}
