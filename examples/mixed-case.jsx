const a = <p>Row A<bR/>Row B</p>;
