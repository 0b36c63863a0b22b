// How often the clerks' page calls right and wrong returns of invented stations unusual. Each row
// is for a spread of the lists' shares between stations and for a number of closed returns.
const SHARES = [30, 26, 12, 9, 6, 5, 4, 3, 2, 1.5, 1, 0.5].map((one) => one / 100);
let seed = 20261130;
const random = () => {
  seed = (seed * 1664525 + 1013904223) % 4294967296;
  return (seed + 0.5) / 4294967296;
};
const normal = () => Math.sqrt(-2 * Math.log(random())) * Math.cos(2 * Math.PI * random());
const drawn = (shares, many) => {
  const sums = [], votes = shares.map(() => 0);
  shares.reduce((sum, one, at) => sums[at] = sum + one, 0);
  for (let n = 0; n < many; n += 1) {
    const one = random() * sums.at(-1);
    votes[sums.findIndex((sum) => one < sum)] += 1;
  }
  return votes;
};
const returned = (spread, swing) =>
  drawn(SHARES.map((one, at) => one * Math.exp(swing[at] + spread * normal())),
    Math.round((380 + random() * 340) * 0.7));
const isSeen = (votes, wanted) => farOff(votes, wanted).length > 0;
const rows = [];
for (const spread of [0.2, 0.3, 0.4, 0.5]) {
  for (const closed of [0, 10, 40, 300]) {
    const count = { alarms: 0, lost: 0, exchanged: 0 }, tried = { ...count };
    const see = (name, votes, wanted) => {
      tried[name] += 1;
      count[name] += isSeen(votes, wanted);
    };
    for (let constituency = 0; constituency < 6; constituency += 1) {
      const swing = SHARES.map(() => 0.3 * normal());
      const returns = Array.from({ length: closed }, () => returned(spread, swing));
      const sums = SHARES.map((_, at) => total(returns.map((votes) => votes[at])));
      const former = SHARES.map((one) => one * 1e6);
      const { lists } = expectation(sums, closed, former, closed ? spreadsOf(returns) : []);
      for (let n = 0; n < 80; n += 1) {
        const votes = returned(spread, swing);
        see("alarms", votes, lists);
        for (const at of [0, 1, 2]) {
          const lost = [...votes], exchanged = [...votes];
          lost[at] = Math.floor(lost[at] / 10);
          see("lost", lost, lists);
          if (at !== 1) continue;
          [exchanged[at], exchanged[at + 1]] = [votes[at + 1], votes[at]];
          see("exchanged", exchanged, lists);
        }
      }
    }
    const shares = Object.keys(count).map((name) => [name, count[name] / tried[name]]);
    rows.push({ spread, closed, ...Object.fromEntries(shares) });
  }
}
return rows;
