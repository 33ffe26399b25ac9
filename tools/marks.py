#!/usr/bin/env python3
"""Writes crates/spec/specs/Marks.antt (document 01's marks and limits as rows of bytes) and crates/spec/proofs/Marks.antt (one theorem
over them). The expected outputs are written here by hand from document 01; nothing is taken from the definitions.
"""
import os

from unfold import gather, root

def A(s): return '(ascii "%s")'%s.replace('\\','\\\\').replace('"','\\"')
def cat(ps):
    ps=[p for p in ps if p!='[]']
    if not ps: return '[]'
    r=ps[-1]
    for p in reversed(ps[:-1]): r='(%s ++ %s)'%(p,r)
    return r
def F(t,*ps): return '(fld 0x%02x %s)'%(t,cat(list(ps)))
def B(*bs): return '('+' ∷ '.join([str(b) for b in bs]+['[]'])+')'
def N8(n): return B(*n.to_bytes(8,'big'))
name=lambda s:F(0x40,A(s))
el=lambda n,*ps:F(0x30,name(n),*ps)
page=lambda *ps:F(1,F(0x12,*ps))
src=lambda s:F(0x79,F(0x20,A(s)))
imp=lambda n:F(0x82,F(0x81,A("react/jsx-runtime")),B(n))
tpl=lambda n,*gs:F(0x90,B(0,0,0,n),*gs)
# 84 (02, A6): strings, and between two of them the kind of the gap, 1 for an attribute, 2 for a child, given by hand
def form(n,*ss):
    kinds=[s for s in ss if isinstance(s,int)]
    assert all(isinstance(s,int)==(i%2==1) for i,s in enumerate(ss)) and len(ss)%2==1
    return F(0x84,B(0,0,0,n),B(0,len(kinds),*kinds),*[F(0x81,A(s)) for s in ss if isinstance(s,str)])
def out(n,*ps,forms=True): return cat(([imp(n)] if n else [])+([F(0x83)] if forms else [])+[F(0x12,*ps)])
rows=[]
def row(c,pg,num,forms=0,shelf='[]',pout='[]',opt='[]',desk=65536,sr=65536,pr=65536): rows.append((c,pg,opt,desk,sr,pr,num,forms,shelf,pout))
row("K1 <br/>",page(el("br")),0,1,form(1,"<br>"),out(2,tpl(1)))
row("K2 <i disabled={false}>B</i>",page(el("i",F(0x50,name("disabled"),F(0x52,F(0x72,B(0)))),F(0x60,A("B")))),0,1,form(1,"<i>B</i>"),out(2,tpl(1)))
row("K3 <i disabled={f}/>",page(el("i",F(0x50,name("disabled"),F(0x52,src("f"))))),0,1,form(1,"<i ",1,"></i>"),out(2,tpl(1,F(0x93,src("f"),F(0x81,A("disabled"))))))
row("K4 <p hidden/>",page(el("p",F(0x50,name("hidden")))),0,1,form(1,"<p ",1,"></p>"),out(6,tpl(1,F(0x91,F(0x81,A("hidden")),F(0x72,B(1))))))
row('K5 <b key={"7"}/>',page(el("b",F(0x50,name("key"),F(0x52,F(0x70,A("7")))))),0,1,form(1,'<b key="7"></b>'),out(2,tpl(1)))
row('K5 <b key="7"/>',page(el("b",F(0x50,name("key"),F(0x51,A("7"))))),0,1,form(1,"<b ",1,"></b>"),out(6,tpl(1,F(0x91,F(0x81,A("key")),F(0x70,A("7"))))))
row("K6 <div><Foo><i/></Foo></div>",page(el("div",el("Foo",el("i")))),0,2,cat([form(2,"<i></i>"),form(1,"<div>",2,"</div>")]),out(3,tpl(1,F(0x94,name("Foo"),F(0x95,F(0x96,F(0x81,A("children")),tpl(2)))))))
row("K7 <></>",page(F(0x31)),0,0,'[]',out(0,F(0x73),forms=False))
row("K7 <><></></>",page(F(0x31,F(0x31))),10)
row('K8 <Foo>a{"<"}<i/></Foo>',page(el("Foo",F(0x60,A("a")),F(0x52,F(0x70,A("<"))),el("i"))),0,1,form(1,"a&amp;lt;<i></i>"),out(3,F(0x94,name("Foo"),F(0x95,F(0x96,F(0x81,A("children")),tpl(1))))))
row("K9 <a b={-0}/>",page(el("a",F(0x50,name("b"),F(0x52,F(0x75,N8(0)))))),0,1,form(1,'<a b="-0"></a>'),out(2,tpl(1)))
# a container under a listed attribute (02, A1): K10, a full one, an empty one, and one that holds a tag
def listed(c,tag,attr,value,passed,*more):
    row(c,page(el(tag,F(0x50,name(attr),F(0x52,value)))),0,1+len(more),cat([form(1,"<%s "%tag,1,"></%s>"%tag),*more]),out(6,tpl(1,F(0x91,F(0x81,A(attr)),passed))),opt=F(3,F(0x20,A(attr))))
listed("K10 <a b={-0}/>, b in 03","a","b",F(0x75,N8(0)),F(0x75,N8(0)))
listed("<p class={x}/>, class in 03","p","class",src("x"),src("x"))
listed("<p class={}/>, class in 03","p","class",'[]',F(0x73))
listed("<p class={<i/>}/>, class in 03","p","class",el("i"),tpl(2),form(2,"<i></i>"))
# 02, A6: gaps of both kinds in one template, in either order
row("<p class={c}>{n}</p>, class in 03",page(el("p",F(0x50,name("class"),F(0x52,src("c"))),F(0x52,src("n")))),0,1,form(1,"<p ",1,">",2,"</p>"),out(14,tpl(1,F(0x91,F(0x81,A("class")),src("c")),F(0x92,src("n")))),opt=F(3,F(0x20,A("class"))))
row("<p>{n}<i disabled={f}/></p>",page(el("p",F(0x52,src("n")),el("i",F(0x50,name("disabled"),F(0x52,src("f")))))),0,1,form(1,"<p>",2,"<i ",1,"></i></p>"),out(10,tpl(1,F(0x92,src("n")),F(0x93,src("f"),F(0x81,A("disabled"))))))
# the worked page of 01's card
row("const a = <p class=\"t\">Hi {n}</p>;",F(1,F(0x12,F(0x20,A("const a = ")),el("p",F(0x50,name("class"),F(0x51,A("t"))),F(0x60,A("Hi ")),F(0x52,src("n"))),F(0x20,A(";")))),0,1,form(1,'<p class="t">Hi ',2,'</p>'),
    cat([imp(10),F(0x83),F(0x12,F(0x20,A("const a = ")),tpl(1,F(0x92,src("n"))),F(0x20,A(";")))]))
row("83 before the first 10 or 12",F(1,F(0x11,F(0x20,A("import"))),F(0x10,el("br"))),0,1,form(1,"<br>"),cat([imp(2),F(0x11,F(0x20,A("import"))),F(0x83),F(0x10,tpl(1))]))
row("no 10 and no 12: 83 first",F(1,F(0x13),F(0x11,el("br"))),0,1,form(1,"<br>"),cat([imp(2),F(0x83),F(0x13),F(0x11,tpl(1))]))
# limits
def deep(k):
    # 01, 12, then 30s; the innermost 30 stands at depth k-1 and its 40 at depth k
    e=el("a")
    for _ in range(k-4): e=el("a",e)
    return page(e)
row("depth 48",deep(48),0,1,form(1,"<a>"*45+"</a>"*45),out(2,tpl(1)))
row("depth 49",deep(49),8)
num=lambda n:page(el("a",F(0x50,name("b"),F(0x52,F(0x71,N8(n))))))
row("9,007,199,254,740,991",num(9007199254740991),0,1,form(1,'<a b="9007199254740991"></a>'),out(2,tpl(1)))
row("one more",num(9007199254740992),7)
# 02, A2: digits and places
def D(n,p): return B(*n.to_bytes(8,'big'),p)
dec=lambda n,p,t=0x7a:page(el("a",F(0x50,name("b"),F(0x52,F(t,D(n,p))))))
def decimal(c,n,p,text,t=0x7a): row(c,dec(n,p,t),0,1,form(1,'<a b="%s"></a>'%text),out(2,tpl(1)))
decimal("12.50",1250,2,"12.5")
decimal("0.000000000000001",1,15,"0.000000000000001")
decimal("999,999,999,999,999 with no place",999999999999999,0,"999999999999999")
decimal("0.999999999999999",999999999999999,15,"0.999999999999999")
decimal("0.00",0,2,"0")
decimal("100.00",10000,2,"100")
decimal("-0.00",0,2,"-0",t=0x7b)
row("<p>{12.50}</p>",page(el("p",F(0x52,F(0x7a,D(1250,2))))),0,1,form(1,"<p>12.5</p>"),out(2,tpl(1)))
row("<p>{-12.50}</p>",page(el("p",F(0x52,F(0x7b,D(1250,2))))),0,1,form(1,"<p>",2,"</p>"),out(10,tpl(1,F(0x92,F(0x7b,D(1250,2))))))
row("<Foo a={12.50}/>",page(el("Foo",F(0x50,name("a"),F(0x52,F(0x7a,D(1250,2)))))),0,0,'[]',out(1,F(0x94,name("Foo"),F(0x95,F(0x96,F(0x81,A("a")),F(0x7a,D(1250,2))))),forms=False))
row("digits one over",dec(1000000000000000,0),7)
row("sixteen places",dec(1,16),7)
row("a 7A of eight bytes",page(el("a",F(0x50,name("b"),F(0x52,F(0x7a,N8(1)))))),4)
row("a 71 of nine bytes",page(el("a",F(0x50,name("b"),F(0x52,F(0x71,D(1,0)))))),4)
# 02, A12: sums in braces, where options have a 05
sum5=F(5)
row("<p>{2 * 12 + 3}</p>, 05",page(el("p",F(0x52,src("2 * 12 + 3")))),0,1,form(1,"<p>27</p>"),out(2,tpl(1)),opt=sum5)
row("<p>{2 * 12 + 3}</p>, no 05",page(el("p",F(0x52,src("2 * 12 + 3")))),0,1,form(1,"<p>",2,"</p>"),out(10,tpl(1,F(0x92,src("2 * 12 + 3")))))
row("<p>{0 - 1}</p>, 05",page(el("p",F(0x52,src("0 - 1")))),0,1,form(1,"<p>",2,"</p>"),out(10,tpl(1,F(0x92,F(0x75,N8(1))))),opt=sum5)
row("<p>{007}</p>, 05",page(el("p",F(0x52,src("007")))),0,1,form(1,"<p>",2,"</p>"),out(10,tpl(1,F(0x92,src("007")))),opt=sum5)
two=F(0x79,F(0x20,A("1")),F(0x20,A("+1")))
row("<p>{1 and +1, two pieces}</p>, 05",page(el("p",F(0x52,two))),0,1,form(1,"<p>",2,"</p>"),out(10,tpl(1,F(0x92,two))),opt=sum5)
row("05 behind 04",page(el("br")),0,1,form(1,"<br>"),cat([F(0x82,F(0x81,A("x/jsx-runtime")),B(2)),F(0x83),F(0x12,tpl(1))]),opt=cat([F(4,A("x")),F(5)]))
row("05 with a body",page(el("br")),4,opt=F(5,B(1)))
row("05 before 04",page(el("br")),4,opt=cat([F(5),F(4,A("x"))]))
row("05 twice",page(el("br")),4,opt=cat([F(5),F(5)]))
row("06",page(el("br")),4,opt=F(6))
row("scratch of 65,535 bytes",page(el("br")),1,desk=65535)
row("an empty page",'[]',3)
row("two bytes",B(1,0),3)
row("bytes after 01",cat([F(1),B(0)]),3)
row("01 0003 99 0000 07",B(1,0,3,0x99,0,0,7),4)
row("empty 01",F(1),0,0,'[]','[]')
row("a name with a digit first",page(el("1")),5)
row("a hyphen in a member",page(F(0x30,F(0x41,name("a"),name("b-c")))),5)
row("one member",page(F(0x30,F(0x41,name("a")))),4)
row("a surrogate",F(1,F(0x12,F(0x20,B(0xed,0xa0,0x80)))),6)
row("the letter before the surrogates",F(1,F(0x12,F(0x20,B(0xed,0x9f,0xbf)))),0,0,'[]',F(0x12,F(0x20,B(0xed,0x9f,0xbf))))
row("04 empty",page(el("br")),4,opt=F(4))
row("04 before 02",page(el("br")),4,opt=cat([F(4,A("x")),F(2)]))
row("import source x",page(el("br")),0,1,form(1,"<br>"),cat([F(0x82,F(0x81,A("x/jsx-runtime")),B(2)),F(0x83),F(0x12,tpl(1))]),opt=F(4,A("x")))
row("templates out one short",page(el("br")),12,sr=15)
row("templates out as long",page(el("br")),0,1,form(1,"<br>"),out(2,tpl(1)),sr=16)
row("page out one short",page(el("br")),13,sr=16,pr=36)
row("page out as long",page(el("br")),0,1,form(1,"<br>"),out(2,tpl(1)),sr=16,pr=37)
row("<Foo a={1}/>",page(el("Foo",F(0x50,name("a"),F(0x52,F(0x71,N8(1)))))),0,0,'[]',out(1,F(0x94,name("Foo"),F(0x95,F(0x96,F(0x81,A("a")),F(0x71,N8(1))))),forms=False))
row('<a b="<&"/>',page(el("a",F(0x50,name("b"),F(0x51,A("<&"))))),0,1,form(1,'<a b="&lt;&amp;"></a>'),out(2,tpl(1)))
row("<i/> and <b/>, side by side",page(el("i"),el("b")),0,2,cat([form(1,"<i></i>"),form(2,"<b></b>")]),out(2,tpl(1),tpl(2)))
# 02, A4: two attributes of one normalised name, compared in small letters
attr=lambda n,v:F(0x50,name(n),F(0x51,A(v)))
prop=lambda n,v:F(0x96,F(0x81,A(n)),F(0x70,A(v)))
twice=el("p",attr("class","a"),attr("className","b"))
row('<p class="a" className="b"/>',page(twice),16)
row('<use xlinkHref="a" href="b"/>',page(el("use",attr("xlinkHref","a"),attr("href","b"))),16)
row('<svg viewBox="a" viewbox="b"/>',page(el("svg",attr("viewBox","a"),attr("viewbox","b"))),16)
row('<p class="a" id="b" className="c"/>: not side by side',page(el("p",attr("class","a"),attr("id","b"),attr("className","c"))),16)
row('<p id="c" class="a" className="b"/>: not the first',page(el("p",attr("id","c"),attr("class","a"),attr("className","b"))),16)
row('<div>a<p class="a" className="b"/></div>: not the outermost',page(el("div",F(0x60,A("a")),twice)),16)
row('<p class={} className="b"/>: the first is dropped',page(el("p",F(0x50,name("class"),F(0x52)),attr("className","b"))),16)
row('<p class="a" className="b"/>, class in 03',page(twice),16,opt=F(3,F(0x20,A("class"))))
row('<p class="a" className="b" {...x}/>: a call',page(el("p",attr("class","a"),attr("className","b"),F(0x53,src("x")))),0,0,'[]',out(1,F(0x94,F(0x81,A("p")),F(0x95,prop("class","a"),prop("class","b"),F(0x53,src("x")))),forms=False))
row('<Foo class="a" className="b"/>: a component',page(el("Foo",attr("class","a"),attr("className","b"))),0,0,'[]',out(1,F(0x94,name("Foo"),F(0x95,prop("class","a"),prop("className","b"))),forms=False))
row('<br><p class="a" className="b"/></br>: lost',page(el("br",twice)),0,1,form(1,"<br>"),out(2,tpl(1)))
row('<p class="a" className="b"/> beside <><></></>',page(twice,F(0x31,F(0x31))),10)
row('<p class="a" className="b"/>, no room in templates out',page(twice),16,sr=0)
# 02, A10: one of the 14 only in small letters
row("<bR/>",page(el("bR")),19)
row("<p>{x}<bR/></p>: behind a gap",page(el("p",F(0x52,src("x")),el("bR"))),19)
row("<iNPUT/>",page(el("iNPUT")),19)
row("<Br/>: a component",page(el("Br")),0,0,'[]',out(1,F(0x94,name("Br"),F(0x73)),forms=False))
row("<INPUT/>: a component",page(el("INPUT")),0,0,'[]',out(1,F(0x94,name("INPUT"),F(0x73)),forms=False))
row("<dIV/>: none of the 14",page(el("dIV")),0,1,form(1,"<dIV></dIV>"),out(2,tpl(1)))
row('<bR class="a" className="b"/>',page(el("bR",attr("class","a"),attr("className","b"))),16)
row('<bR/> before <p class="a" className="b"/>',page(el("bR"),twice),16)
row("<bR/>, no room in templates out",page(el("bR")),19,sr=0)
row("a run over 65,535 that is merged again",page(F(0x30,name("Foo"),F(0x60,A("a")),F(0x52,F(0x70,'(replicate 13107 38)')),el("i"))),11)
row("a body over 65,535",page(F(0x30,name("p"),F(0x60,'(replicate 13107 38)'))),11)


SPECS = """-- The marks and the limits of document 01, on bytes: page, options, length of scratch, room in templates out and in page out; then what
-- the answer must be: number, templates, templates out, page out. Written by tools/marks.py. Assumes nothing: these are definitions.
use Rattle.std.specs.Prelude.{ℕ, ◌≡◌, List, [], ◌∷◌, ◌++◌, length, replicate}
use Rattle.field.specs.Bytes.{Bytes, ascii}
use Rattle.field.specs.Number.{big_endian}
use Rattle.spec.specs.Answer.{Outcome, refused, accepted, outcome, number}

-- an answer to be compared: a refusal writes nothing
pub record Reply : Type 0 where
  pub number : ℕ
  pub templates : ℕ
  pub templates_out : Bytes
  pub page_out : Bytes

unfoldable pub reply : Outcome → Reply
reply (refused n) = record { number = number (refused n); templates = 0; templates_out = []; page_out = [] }
reply (accepted w) = record { number = number (accepted w); templates = w.templates; templates_out = w.templates_out; page_out = w.page_out }

pub record Mark : Type 0 where
  pub page : Bytes
  pub options : Bytes
  pub scratch : ℕ
  pub templates_room : ℕ
  pub page_room : ℕ
  pub expected : Reply

-- a field
abbrev pub fld : ℕ → Bytes → Bytes
unfolding big_endian
fld t b = t ∷ (big_endian 2 (length b) [] ++ b)

abbrev pub mark : Bytes → Bytes → ℕ → ℕ → ℕ → ℕ → ℕ → Bytes → Bytes → Mark
mark p o d s r n f so po = record { page = p; options = o; scratch = d; templates_room = s; page_room = r; expected = record { number = n; templates = f; templates_out = so; page_out = po } }

unfoldable pub AllHold : List Mark → Type 0
AllHold [] = Unit {0}
AllHold (m ∷ ms) = (reply (outcome m.page m.options m.scratch m.templates_room m.page_room) ≡ m.expected) × AllHold ms

abbrev pub marks : List Mark
marks =
"""

PROOF = """-- The table of marks, by computation. Main statement: `k_table`. Written by tools/marks.py. Assumes nothing.
use Prim.Native.Nat.{ℕ}
use mathlib.Core.Path.{refl}
use Rattle.field.specs.Bytes.{Bytes}
use Rattle.spec.specs.Answer.{Outcome}
use Rattle.spec.specs.Marks as K
use Rattle.spec.specs.Marks.{AllHold, reply}
%s

-- all that an answer computes with
unfoldable pub computed : Bytes → Bytes → ℕ → ℕ → ℕ → Outcome
unfolding %s
computed p o d s q = outcome p o d s q

pub k_table : AllHold K.marks
unfolding AllHold computed reply
k_table = %s
"""


def main():
    spec = os.path.join(root(), "crates", "spec")
    text = SPECS
    for c, pg, opt, d, sr, pr, n, f, so, po in rows:
        text += "    -- %s\n    mark %s %s %d %d %d %d %d %s %s ∷\n" % (c, pg, opt, d, sr, pr, n, f, so, po)
    with open(os.path.join(spec, "specs", "Marks.antt"), "w") as f:
        f.write(text + "    []\n")
    uses, names = gather()
    with open(os.path.join(spec, "proofs", "Marks.antt"), "w") as f:
        f.write(PROOF % ("\n".join(uses), " ".join(names), "(refl, " * len(rows) + "tt" + ")" * len(rows)))
    print(len(rows), "rows")


if __name__ == "__main__":
    main()
