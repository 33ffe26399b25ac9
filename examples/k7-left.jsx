const a = <><></></>;
