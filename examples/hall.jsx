export default function Page(props) {
  return <Hall title="Main hall" seats={412} data-open={isOpen}>
    <h1 id={props.id}>{props.play}</h1>
    <Hall.Plan floor={-1} aisle>
      Please choose a seat.
    </Hall.Plan>
  </Hall>;
}
