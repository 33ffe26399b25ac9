const a = <a b={-0}/>;
