const a = <Foo>a{"<"}<i/></Foo>;
