const a = <br/>;
