< svg : a
  b = "1"c{ ... d }e = { - 5 }
>{ }{ <
Foo . Bar / > }< / svg : a >
