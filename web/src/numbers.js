// Numbers and lists in words.
const GROUPED = new Intl.NumberFormat('en');

export function grouped(number) {
  return GROUPED.format(number);
}

const SUPERSCRIPTS = '⁰¹²³⁴⁵⁶⁷⁸⁹';
const EXACT = 15;

// A number of any size, rounded down where it has many digits: 3.14 × 10²⁰.
export function great(number) {
  const digits = String(number);
  if (digits.length <= EXACT) return grouped(number);
  const power = String(digits.length - 1).replace(/\d/g, (digit) => SUPERSCRIPTS[digit]);
  return `${digits[0]}.${digits.slice(1, 3)} × 10${power}`;
}

// 0, 1, 2, 5 as "0-2, 5".
export function ranges(numbers) {
  const parts = [];
  for (let start = 0; start < numbers.length; ) {
    let end = start;
    while (numbers[end + 1] === numbers[end] + 1) end += 1;
    parts.push(start === end ? `${numbers[start]}` : `${numbers[start]}-${numbers[end]}`);
    start = end + 1;
  }
  return parts.join(', ');
}

export function shortened(text, most) {
  return text.length > most ? `${text.slice(0, most - 1)}…` : text;
}

// A whole number from an input, within its limits; what was there where it is none.
export function numberWithin(text, least, most, otherwise) {
  if (!/^\s*\d{1,15}\s*$/.test(text)) return otherwise;
  return Math.min(Math.max(Number(text), least), most);
}
