<Hall
  seats={[1, 2, 3]}
/>
