const a = <p hidden/>;
