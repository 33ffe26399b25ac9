import { Layout } from "./layout.jsx";
;
export const Title = () => <h1>Seats</h1>;
const rows = 12;
export default function Page() {
  return <Layout head={<Title/>}>
    <p>Hall {2}</p>
    <hr/>
  </Layout>;
}
export { rows };
