// The print of the program hutplan, and demands as it reads them.

/// More watts than a demand may have: what a line that is no demand counts as.
const NO_DEMAND = 16777216;
const MOST_LINES = 513;

/// What hutplan prints for a plan.
export function printOf(hut, plan) {
  const lines = [`freed ${plan.freed}`];
  let place = 0;
  hut.servers.forEach((server, index) => {
    lines.push(`server ${index + 1} cap ${plan.caps[index]}`);
    server.cords.forEach((cord, at) => {
      const figures = `grant ${plan.grants[place]} headroom ${plan.headroom[place]} held ${plan.held[place]}`;
      lines.push(`cord ${at + 1} node ${cord.node} ${figures}`);
      place += 1;
    });
  });
  return lines.map(line => `${line}\n`).join('');
}

/// What it prints for a refusal.
export const refusedPrint = ({ number, place }) => `refused ${number} at ${place}\n`;

/// The demands of a text, one a line: one to eight digits, and any other line is refused by Plan.
export function demandsOf(text) {
  const lines = text.split('\n');
  if (lines.at(-1) === '') lines.pop();
  return lines.slice(0, MOST_LINES).map(line => (/^\d{1,8}$/.test(line) ? Number(line) : NO_DEMAND));
}
