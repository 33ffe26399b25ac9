const a = <svg viewBox="0 0 40 20" className="plan" strokeWidth={2}>
  <use xlink:href="#seat" fillOpacity={0.5} onClick={() => take(id)}/>
  <seat-map tabIndex={0} data-wide/>
</svg>;
