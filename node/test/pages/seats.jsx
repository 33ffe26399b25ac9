// Five seats as buttons.
export function Seats({ seats, take }) {
  const free = seats.filter((seat) => !seat.taken).length;
  return <section className="seats" aria-label="Seats" aria-busy={free < 2}>
    <h2>{free} of {seats.length} seats free</h2>
    <ol>
      {seats.map((seat) => <li key={seat.name} class={seat.taken ? "taken" : "free"}>
        <button type="button" disabled={seat.taken} aria-pressed={seat.taken} data-seat={seat.name} onClick={() => take(seat)}>
          Seat {seat.name}{seat.taken && <b> (taken)</b>}
        </button>
        {seat.taken ? null : <span title={`Take "${seat.name}"`} ref={seat.ref}>{seat.price}</span>}
      </li>)}
    </ol>
    {free === 0 ? <p>Sold out &amp; closed.</p> : <><em>Hurry</em>: {free === 1 ? "one seat" : `${free} seats`} left</>}
  </section>;
}
