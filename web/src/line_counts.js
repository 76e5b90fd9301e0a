// How often each line of a program is executed, and by how many processors: up to a moment, and in
// the whole run.

const emptyRow = () => ({ times: 0, active: 0, most: 0, timesNow: 0, activeNow: 0 });

export class LineCounts {
  // The lines one after the other, and how many processors are active in each, where that is told.
  constructor(lines, active) {
    Object.assign(this, { lines, active, at: 0, rows: new Map() });
    lines.forEach((line, k) => {
      if (line === undefined) return;
      if (!this.rows.has(line)) this.rows.set(line, emptyRow());
      const row = this.rows.get(line);
      const count = active?.[k] ?? 0;
      row.times += 1;
      row.active += count;
      row.most = Math.max(row.most, count);
    });
  }

  add(k, sign) {
    const row = this.rows.get(this.lines[k]);
    if (!row) return;
    row.timesNow += sign;
    row.activeNow += sign * (this.active?.[k] ?? 0);
  }

  // From now on so many lines are done.
  moveTo(number) {
    for (; this.at < number; this.at += 1) this.add(this.at, 1);
    for (; this.at > number; this.at -= 1) this.add(this.at - 1, -1);
  }

  // By line what was counted, and its part of what the line has that has most: now, and in all.
  get byLine() {
    const of = this.active ? ['activeNow', 'active'] : ['timesNow', 'times'];
    const most = Math.max(1, ...[...this.rows.values()].map((row) => row[of[1]]));
    return new Map([...this.rows].sort(([one], [other]) => one - other)
      .map(([line, row]) => [line, { ...row, parts: of.map((name) => row[name] / most) }]));
  }
}
