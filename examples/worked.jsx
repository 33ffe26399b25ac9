const a = <p class="t">Hi {n}</p>;
