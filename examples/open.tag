<ul>
  <li>Hall left
  <li>Hall right</li>
</ul>
