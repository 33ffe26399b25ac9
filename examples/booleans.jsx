const a = <tr hidden={false}>
  <td><input type="checkbox" checked/></td>
  <td><input type="checkbox" checked={true} disabled={false}/></td>
  <td><input type="checkbox" checked={seat.taken} disabled={seat.sold}/></td>
  <td><input type="checkbox" checked="checked" aria-checked={true}/></td>
  <td>{true}{false}{null}</td>
</tr>;
