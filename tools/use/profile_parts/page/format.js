/** Numbers with their units. */
'use strict';

const grouped = number => String(Math.round(number)).replace(/\B(?=(\d{3})+$)/g, ',');
const unit = (number, word) => `${grouped(number)} ${word}${Math.round(number) === 1 ? '' : 's'}`;
const share = (part, whole) => `${(whole === 0 ? 0 : 100 * part / whole).toFixed(1)} %`;

/** Bytes, and from a kibibyte on in units of 1,024. */
function bytes(number) {
  if (number < 1024) return unit(number, 'byte');
  const [size, name] = number < 1048576 ? [1024, 'KiB'] : [1048576, 'MiB'];
  return `${grouped(number)} bytes (${(number / size).toFixed(1)} ${name})`;
}
