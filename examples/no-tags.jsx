const seats = 412;
;
