const a = <Ticket code={"A1\tB2\r\n\"C3\" \\ \x00\x1b\x1f\x7f"} note="bell: &#7;">{"one\x01two"}</Ticket>;
const b = <pre title="a&#9;b">{"\x0bone\\two\x7f\r\n"}</pre>;
