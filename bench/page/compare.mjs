// Compares the checker in page/ in Node with what the program said: node bench/page/compare.mjs CASES, which cases.py
// or sections.py wrote.
import { readFileSync } from "node:fs";
import { compare } from "./cases.mjs";

const { count, faults, differences } = compare(readFileSync(process.argv[2]));
const counts = Object.entries(faults).sort((one, other) => other[1] - one[1])
    .map(([name, times]) => `${name} ${times}`);
differences.forEach(line => console.log(line));
if (count === 0 || differences.length > 0) {
    console.log(`compare: ${count} cases, and there are differences`);
    process.exit(1);
}
console.log(`compare: ${count} cases, no difference: ${counts.join(", ")}`);
