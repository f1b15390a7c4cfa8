// The columns of a command, or of a group, by the number of their second since 1970. What is older than is kept is written over.

class Past {
  constructor() {
    this.counts = new Uint32Array(COLUMNS_KEPT * KINDS.length);
    this.states = new Uint8Array(COLUMNS_KEPT);
    this.stamps = new Float64Array(COLUMNS_KEPT).fill(-1);
    this.first = Infinity;
  }

  // Takes the columns from `first` to `next` as they were told. Those before `born`, and the holes, nobody looked at.
  take(told, first, next, born, holes) {
    const from = Math.max(first, next - COLUMNS_KEPT, born);
    for (let column = from; column < next; column++) this.begin(column, !holes.has(column));
    KINDS.forEach((kind, k) => {
      const numbers = Object.hasOwn(told, kind) ? told[kind] : [], at = next - numbers.length;
      for (let column = Math.max(from, at); column < next; column++) this.counts[this.place(column, k)] = numbers[column - at];
    });
    this.takeStates(told.circuit || [], from, next);
  }
  begin(column, isKnown) {
    const slot = column % COLUMNS_KEPT;
    this.counts.fill(0, slot * KINDS.length, (slot + 1) * KINDS.length);
    this.stamps[slot] = isKnown ? column : -1;
    if (isKnown) this.first = Math.min(this.first, column);
  }
  takeStates(runs, from, next) {
    let column = next - runs.reduce((sum, [, times]) => sum + times, 0);
    for (const [state, times] of runs) {
      for (const end = Math.min(next, column + times); column < end; column++) {
        if (column >= from) this.states[column % COLUMNS_KEPT] = Math.max(0, STATES.indexOf(state));
      }
    }
  }

  place(column, k) { return (column % COLUMNS_KEPT) * KINDS.length + k; }
  has(column) { return column >= 0 && this.stamps[column % COLUMNS_KEPT] === column; }
  state(column) { return this.states[column % COLUMNS_KEPT]; }
  count(column, k) { return this.has(column) ? this.counts[this.place(column, k)] : 0; }
  of(column, bar) { return bar.kinds.reduce((sum, k) => sum + this.count(column, k), 0); }
  total(k, from, to) {
    let sum = 0;
    for (let column = from; column < to; column++) sum += this.count(column, k);
    return sum;
  }

  // The counts over some columns, by the words of bars and asides; `have` is how many of the columns are known.
  sums(from, to) {
    const sums = {have: 0};
    for (const bar of BARS) sums[bar.look] = 0;
    for (const [word] of ASIDES) sums[word] = 0;
    for (let column = from; column < to; column++) {
      if (!this.has(column)) continue;
      sums.have++;
      for (const bar of BARS) sums[bar.look] += this.of(column, bar);
      for (const [word, k] of ASIDES) sums[word] += this.count(column, k);
    }
    sums.answers = sums.value + sums.fallback + sums.error + sums.bad;
    return sums;
  }
}
