export const Sheet = ({ hall, id, play, day, acts, note }) => <html lang="en">
  <head>
    <meta charset="utf-8"/>
    <title>{play}</title>
    <style>{"@page { size: A5 } body { font: 12pt Georgia, serif; max-width: 32em; margin: 2em auto } header, footer { text-align: center } footer { margin-top: 2em } h2 { font-size: 1em; font-variant: small-caps } table { width: 100%; border-collapse: collapse } tr { border-bottom: 1px dotted } th { text-align: left; font-weight: normal } td { text-align: right } .guest { font-style: italic }"}</style>
  </head>
  <body>
    <header>
      <p>{hall}</p>
      <h1 id={id}>{play}</h1>
      <p>{day}</p>
    </header>
    <main>{acts}</main>
    <footer>{note}</footer>
  </body>
</html>;
export const Act = ({ title, parts }) => <section><h2>{title}</h2><table><tbody>{parts}</tbody></table></section>;
export const Part = ({ guest, role, player }) => <tr class={guest}><th>{role}</th><td>{player}</td></tr>;
export const Both = ({ one, other }) => <>{one}{other}</>;
