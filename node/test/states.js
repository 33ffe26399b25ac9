// Five seats, free or taken: all 32 states, and the pages that are rendered in each.

import { join } from "node:path";
import { PACKAGE, ROOT, source } from "./support.js";

export const STATES = Array.from({ length: 32 }, (_, bits) => bits);

const PRICES = [12.5, 20, 7, 0, 99];

/** The seats of a state: seat n is taken if bit n is set. */
export function seatsOf(state) {
  return PRICES.map((price, at) => ({ name: `${"AB<&\""[at]}${at + 1}`, price, taken: Boolean((state >> at) & 1) }));
}

// What examples/hall.jsx takes for granted.
const HALL = `
const isOpen = true;
const Hall = ({ title, seats, children, "data-open": open }) => <main title={title} data-seats={seats} data-open={open}>{children}</main>;
Hall.Plan = ({ floor, aisle, children }) => <p class={aisle ? "aisle" : null}>{floor}{": "}{children}</p>;
`;

const PAGES = join(PACKAGE, "test", "pages");
const EXAMPLES = join(ROOT, "examples");

function rows(state) {
  const seats = seatsOf(state).map(({ name, taken }) => ({ id: name, label: `${name}!`, sold: taken }));
  return [{ name: "R & S", seats: seats.slice(0, 3) }, { name: "T", seats: seats.slice(3) }];
}

/** Each page: its text, what it exports, and the props in a state. */
export const RENDERED = [
  { name: "seats", text: source(PAGES, "seats"), exported: "Seats", props: (state) => ({ seats: seatsOf(state) }) },
  { name: "house", text: source(PAGES, "house"), exported: "default", props: (state) => ({ seats: seatsOf(state) }) },
  { name: "programme", text: source(PAGES, "programme"), exported: "Programme", props: (state) => ({ seats: seatsOf(state) }) },
  { name: "examples/rows", text: source(EXAMPLES, "rows"), exported: "Rows", props: (state) => ({ rows: rows(state) }) },
  {
    name: "examples/choices",
    text: source(EXAMPLES, "choices"),
    exported: "Choices",
    props: (state) => ({ sold: new Set(state & 1 ? ["B1"] : []), chosen: state & 2 ? "B2" : "A1" }),
    distinct: 4,
  },
  {
    name: "examples/hall",
    text: source(EXAMPLES, "hall") + HALL,
    exported: "default",
    props: (state) => ({ id: state & 1 ? "hall" : null, play: seatsOf(state).filter(({ taken }) => taken).map(({ name }) => name) }),
  },
];
