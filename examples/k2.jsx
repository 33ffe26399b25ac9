const a = <i disabled={false}>B</i>;
