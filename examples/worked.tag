<p class="t">Hi {n}</p>
