const a = <></>;
