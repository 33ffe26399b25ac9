<Programme.Row xlink:href="/hall?a=1&amp;b=2" seats={120} from={-1} price={12.50} title={"Row {7}"}
  sold={false} more={null} icon={<i class='s'/>} beside=<hr/> {...props}>
  Fish &amp; chips, 4 &lt; 5 &gt; 3: &quot;it&#39;s late&quot;
  <b>{price.toFixed(2)}</b>{}{...rest}<></>
  {rows.map((row) => { return row.name; })}
</Programme.Row>
