// Numbers, times and names as they are read.

const rounded = x => Math.round(x * 10) / 10;
const rate = n => n === 0 ? '0' : n < 9.95 ? n.toFixed(1).replace(/\.0$/, '') : Math.round(n).toLocaleString('en');
const span = ms => {
  const s = Math.max(0, Math.round(ms / 1000));
  if (s < 120) return `${s} s`;
  if (s < 7200) return `${Math.floor(s / 60)} min`;
  return s < 172800 ? `${Math.floor(s / 3600)} h` : `${Math.floor(s / 86400)} days`;
};
const many = (n, one, more) => `${n.toLocaleString('en')} ${n === 1 ? one : more || `${one}s`}`;
const list = words => words.length < 2 ? words.join('') : `${words.slice(0, -1).join(', ')} and ${words.at(-1)}`;
const clockOf = column => new Date(column * service.columnMs).toLocaleTimeString('en-GB');

// A name is shown as it is, but for what would turn the text around it or hide in it, and for what is beyond 60 letters.
const shown = name => {
  const letters = [...name.replace(/[\p{C}\p{Z}]/gu, c => c === ' ' ? c : `\\u{${c.codePointAt(0).toString(16)}}`)];
  return letters.length > 60 ? `${letters.slice(0, 59).join('')}…` : letters.join('');
};
