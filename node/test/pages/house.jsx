"use strict";

const Row = ({ name, children, ...rest }) => <tr {...rest}><th scope="row">{name}</th>{children}</tr>;
const Parts = {
  Cell: ({ seat }) => <td className={seat.taken ? "x" : "o"} colSpan={1}>{seat.taken ? "×" : seat.name}</td>,
};

/* The whole house as a table: components with children, members, spreads. */
export default function House({ seats }) {
  const [first, ...others] = seats;
  return (
    <table border={1} cellPadding="2">
      <caption>House &mdash; {seats.filter(({ taken }) => taken).length} taken</caption>
      <tbody>
        <Row name="A" id="row-a" data-full={seats.every((seat) => seat.taken)}><Parts.Cell seat={first}/></Row>
        <Row name={"B & C"} hidden={others.every((seat) => seat.taken)}>
          {others.map((seat) => <Parts.Cell key={seat.name} seat={seat}/>)}
        </Row>
        <Row name="D" {...(first.taken ? { title: "<D>", hidden: true } : null)}>
          <td>one</td>
          <td>{others.some((seat) => seat.taken) ? <s>two</s> : <>two, {first.name}</>}</td>
        </Row>
      </tbody>
    </table>
  );
}
