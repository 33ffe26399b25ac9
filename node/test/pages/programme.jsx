import { readFileSync as unused } from "node:fs";

// The paper programme: text over lines, entities, literals, and expressions that need brackets where they end up.
export const Programme = function ({ seats: [a, b, c, d, e] }) {
  let count = 0;
  const next = () => (count += 1, count);
  return<article lang="en" hidden={a.taken ? false : b.taken}>
    <h1 id={`t-${next()}`} title={'"A" & \'B\''}>
      The   Tempest,
      a play &copy; Will{"iam"} S.
    </h1>
    <p>
      Seats {a.name}, {b.name}&#x2014;{[c.name, " & ", <i>{d.name}</i>, [e.name]]} {7n}{12.50}{-3}{+4}
      {true}{false}{null}{undefined}{/* nothing */}{0}
    </p>
    <input type="checkbox" checked={a.taken ? b.taken : c.taken} readOnly={(d.taken, e.taken)} required={!a.taken}/>
    <select multiple disabled={a.taken || b.taken && c.taken}>
      {seatsOf({ a, b, c }).map(([name, seat], at) => { if (seat.taken) return <option value={at} selected>{name}</option>; return <option value={at}>{name}</option> })}
    </select>
    <hr/>
    {(() => { switch (d.taken) { case true: return<b>d</b>; default: return <></> } })()}
    {e.taken ? <Note tone={"loud"} text={c.taken ? <u>c</u> : "no c"}>{a.taken ? "a" : 1}</Note> : <Note text={["x", <br/>]}/>}
    <div dangerouslySetInnerHTML={{ __html: e.taken ? "<hr>" : "&" }} data-e={e.taken}/>
  </article>;
};

function seatsOf(seats) { return Object.entries(seats) }

function Note({ tone = "soft", text, children }) {
  return <aside class={tone}>{text}{children ?? <small>-</small>}</aside>;
}
;
