export const Choices = ({ sold, chosen }) => <select name="seat" required>
  <option value="A1">A1, stalls</option>
  <option value="A2" disabled={true}>A2, stalls (sold)</option>
  <option value="B1" disabled={sold.has("B1")}>B1, balcony</option>
  <option value="B2" disabled={false} selected={chosen === "B2"}>B2, balcony</option>
</select>;
