const a = <b key={"7"}/>;
