export function Blocks({ gallery }) {
  return <table class="blocks">
    <tr data-seats={2 * 12 + 3}><th>Stalls</th><td>{2 * 12 + 3} seats</td></tr>
    <tr data-seats={(14 + 16) * 8 - 4}><th>Balcony</th><td>{(14 + 16) * 8 - 4} seats</td></tr>
    <tr data-seats={2 * gallery}><th>Gallery</th><td>{2 * gallery} seats</td></tr>
    <tr><td><Left of={2 * 12 + 3 + (14 + 16) * 8 - 4} change={3 - 12}/></td></tr>
  </table>;
}
