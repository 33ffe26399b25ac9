const a = <p class="tour" className="sold-out">On tour</p>;
