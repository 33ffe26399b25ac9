const a = <i disabled={f}/>;
