export function Prices({ day }) {
  return <table class="prices">
    <caption>Prices, {day}</caption>
    <tr><th>Stalls</th><td data-price={12.5}>£{12.5}</td></tr>
    <tr><th>Balcony</th><td data-price={9.05}>£{9.05}</td></tr>
    <tr><th>Standing</th><td data-price={0.75}>£{0.75}</td></tr>
    <tr><th>Behind a pillar</th><td><Price of={12.5} less={-1.25}/></td></tr>
  </table>;
}
