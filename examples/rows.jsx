export function Rows({ rows }) {
  return <ol class="rows">
    {rows.map((row) => <li key={row.name}>
      <b>Row {row.name}</b>
      {row.seats.map((seat) => <button type="button" data-seat={seat.id} disabled={seat.sold}>{seat.label}</button>)}
    </li>)}
  </ol>;
}
