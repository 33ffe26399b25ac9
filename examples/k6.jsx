const a = <div><Foo><i/></Foo></div>;
