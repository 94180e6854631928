// What the types refuse: each of these lines.
import { load } from "hullbook";
import { readJournal } from "hullbook/journal.js";
const { Hull, Polygon } = await load(), hull = new Hull();
hull.add("1", 2); // wrong
hull.addAll({}); // wrong
hull.addAll([1, 2]); // wrong
hull.load(Promise.resolve([])); // wrong
const area: number = hull.doubledArea(); // wrong
hull.place(1, 2) === "within"; // wrong
hull.tangents(1, 2).left; // wrong
new Polygon([[0, 0]]).add(1, 2); // wrong
new Polygon([]).relation(new Polygon([])) === "inside"; // wrong
new Polygon([]).withinDistance(new Polygon([]), "1"); // wrong
readJournal(5); // wrong
export { area };
