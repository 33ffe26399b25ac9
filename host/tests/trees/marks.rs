//! 01, The card and Shelf marks.

use super::{Example, code, const_a, string};
use jsx_precompile::page::{Element, Expression, Fragment};

pub fn all() -> Vec<Example> {
    let component = || Element::new("Foo");
    let i = || Element::new("i");
    vec![
        Example::new("worked", const_a(worked())),
        Example::new("k1", const_a(Element::new("br"))),
        Example::new("k2", const_a(i().attribute("disabled", Expression::Boolean(false)).text("B"))),
        Example::new("k3", const_a(i().attribute("disabled", code("f")))),
        Example::new("k4", const_a(Element::new("p").valueless("hidden"))),
        Example::new("k5", const_a(Element::new("b").attribute("key", string("7")))),
        Example::new("k5-gap", const_a(Element::new("b").attribute("key", "7"))),
        Example::new("k6", const_a(Element::new("div").child(component().child(i())))),
        Example::new("k7", const_a(Fragment::new())),
        Example::new("k7-left", const_a(Fragment::new().child(Fragment::new()))),
        Example::new("k8", const_a(component().text("a").child(string("<")).child(i()))),
        Example::new("k9", const_a(Element::new("a").attribute("b", Expression::Minus(0)))),
    ]
}

/// `<p class="t">Hi {n}</p>`
pub fn worked() -> Element {
    Element::new("p").attribute("class", "t").text("Hi ").child(code("n"))
}
