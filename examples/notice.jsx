const a = <p class="notice" title="&quot;Bar&quot; &amp; doors">
  Doors open at 7 &amp; close at 7:30.
  Rows &lt; F have "no" view; don't sit there.

  Café{" & bar "}&#123;20&nbsp;€&#125;{}<br/>
  Enjoy the play!
</p>;
