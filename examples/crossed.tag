<p>
  <b>Hall <i>left</b></i>
</p>
