const a = <>
  <h2>Stalls</h2>
  <>
    <p>Row A</p>
    <>Row B, {left} left</>
  </>
</>;
