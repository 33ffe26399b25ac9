const a = <Seat {...seat} key={seat.id}><button class="seat" {...props} type="button">Take {props.label}</button></Seat>;
