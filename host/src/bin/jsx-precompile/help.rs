//! What `--help` and `--version` print.

macro_rules! transform_options {
    () => {
        "  --skip-element NAME     do not serialize elements of this name: they become calls of jsx
  --skip-attribute NAME   do not serialize attributes of this name: they become calls of jsxAttr
  --import-source NAME    import the helpers from NAME/jsx-runtime; react where none is named
  --sums                  work out sums of whole numbers in braces: {2 * 12 + 3} is 27

The first two may be given again. --name=value is the same as --name value.
"
    };
}

pub const VERSION: &str = concat!("jsx-precompile ", env!("CARGO_PKG_VERSION"), "\n");

pub const ALL: &str = "jsx-precompile: takes the JSX of a page apart into templates and calls

Usage: jsx-precompile COMMAND [OPTION]... FILE

Commands:
  build      print the page as a JavaScript module, or write both outputs as bytes
  check      say whether pages are taken, and where not, the place and the reason
  show       print the fields of a page, of options, of an output, of an order or of a catalogue as a tree
  preview    print an HTML page that shows source, templates and calls
  tag        read the text of one tag and print its field, or the place and the reason
  find       print where templates stand, by their numbers
  fill       print the HTML that templates and an order make
  catalogue  keep the pages of several houses in one file: new, add, remove, list, show
  upgrade    convert templates out and page out of version 0.1.0 into what is written now
  downgrade  convert templates out and page out into what version 0.1.0 wrote

FILE is a page, as bytes or in hex digits, for tag a text, for find templates out. For fill there are two, templates
out and an order, and for upgrade and downgrade templates out and page out. - is standard input, but for the file of
catalogue. docs/FORMAT.md of the repository says what these are.
`jsx-precompile COMMAND --help` tells more of a command, --version prints the version.

Results go to standard output, messages to standard error. The exit status is
  0  done
  1  refused: the message has the input, the byte, the way through the tree, and the number and name of the refusal
  2  the call is wrong, or a file cannot be read or written
";

pub const BUILD: &str = concat!(
    "jsx-precompile build [OPTION]... FILE
jsx-precompile build [OPTION]... --templates FILE --page FILE FILE

Prints the page as a JavaScript module, to be run beside a runtime with the helpers that it imports. With --templates
and --page the two outputs are written to these files as bytes instead, and nothing is printed.

Options:
",
    transform_options!(),
    "
Example:
  $ jsx-precompile build examples/worked.page
  import { jsxTemplate as _jsxTemplate, jsxEscape as _jsxEscape } from \"react/jsx-runtime\";
  const $$_tpl_1 = [\"<p class=\\\"t\\\">Hi \", \"</p>\"];
  const a = _jsxTemplate($$_tpl_1, _jsxEscape(n));
"
);

pub const CHECK: &str = concat!(
    "jsx-precompile check [OPTION]... FILE...

Transforms each page and says whether it is taken, and how many templates it has. The status is 1 where one is refused.

Options:
",
    transform_options!(),
    "
Example:
  $ jsx-precompile check examples/damaged.page
  jsx-precompile: examples/damaged.page: page, byte 26, 01 > 12[0] > 30 p: 3 (torn): 50 (attribute) of 44 bytes where 28 are left

Behind the byte comes the way through the tree: the page (01), its first item, counted from 0, a statement (12), in it
the element p (30). `jsx-precompile show` prints the whole tree.
"
);

pub const SHOW: &str = "jsx-precompile show [OPTION]... FILE

Prints a page, options, templates out, page out or an order as a tree of fields: the place of each in the bytes, its tag,
what the tag means, and its text; of a catalogue its pages, and in them their fields. Where the bytes are refused, the
place is marked and the status is 1.

Options:
  --as KIND    page, options, templates, out, order or catalogue; without it the first byte tells
  --hex        the file has hex digits; without it and --raw the file itself tells
  --raw        the file has the bytes themselves
  --whole      print long texts whole

Example:
  $ jsx-precompile show examples/k1.page
       0  01 page
       3    12 statement
       6      20 source \"const a = \"
      19      30 element
      22        40 identifier \"br\"
      27      20 source \";\"
  page: 31 bytes, 6 fields, 4 deep
";

pub const PREVIEW: &str = concat!(
    "jsx-precompile preview [OPTION]... FILE

Prints one HTML page, to be opened in a browser, without scripts and other files: the source as far as a page has it, the
templates with their static strings and with what fills them, attributes and children in two colours, and the module,
with links from each template to its call and back.

Options:
",
    transform_options!(),
    "
Example:
  $ jsx-precompile preview examples/hall.page > hall.html
"
);

pub const TAG: &str = "jsx-precompile tag [OPTION]... FILE

Reads one element or fragment as JSX has it, with nothing around it, and prints the field that stands for it in a page;
where the text is not read, the line, the column, the number and the reason, and the status is 1. The line end at the
end of the file is no part of the text.

Options:
  --as KIND    tree (without it), hex, or page: a page with the tag as its one statement, in hex digits, for
               `jsx-precompile build -`

Example:
  $ jsx-precompile tag examples/worked.tag
       0  30 element
       3    40 identifier \"p\"
       7    50 attribute
      10      40 identifier \"class\"
      18      51 attribute string \"t\"
      22    60 text \"Hi \"
      28    52 container
      31      79 other expression
      34        20 source \"n\"
  tag: 38 bytes, 9 fields, 4 deep
";

pub const FIND: &str = "jsx-precompile find FILE NUMBER...

Looks up to 256 numbers, which rise, up in templates out, in one walk over it, and prints for each where the first
template with it stands and what kinds of gaps it has, or that it is absent; and how many templates were read: up to the
last one found, or all.

Example:
  $ jsx-precompile find examples/rows.templates 1 2 3 9
       0  84 template 1: child
      38  84 template 2: attribute, child, child
      83  84 template 3: attribute, attribute, child
  absent  84 template 9
  3 of 4 found, 3 templates read
";

pub const FILL: &str = "jsx-precompile fill TEMPLATES ORDER

Prints HTML: of the template that the order names the static strings, and between them the order's fillings, which are
texts and other templates. The line end behind it is no part of it. Where the templates are a page's, the HTML is well
nested. Fillings that do not fit their templates are refused with their place in the order.

Example:
  $ jsx-precompile fill examples/rows.templates examples/rows.order
  <ol class=\"rows\"><li ><b>Row A</b><button type=\"button\" data-seat=\"A1\" disabled>1</button></li></ol>
";

pub const CATALOGUE: &str = "jsx-precompile catalogue new FILE LENGTH
jsx-precompile catalogue add [--shares SHARES] FILE NAME HOUSE TEMPLATES PAGE
jsx-precompile catalogue remove FILE NAME
jsx-precompile catalogue list [--shares SHARES] FILE
jsx-precompile catalogue show [--whole] FILE [NAME]

Keeps the pages of up to 16 houses in one file of a fixed length, up to 16,777,216 bytes. `new` makes an empty one. `add`
puts a page behind the others: its name, a number by which it leaves; its house, 1 to 16; the templates and the page out
that `build` writes. `remove` takes a page out, and later ones close up. `list` prints the pages, and what each house has;
`show` prints the fields of all pages, or of one.

The file has the catalogue as it was or as it is to be, at whatever moment the program is stopped: the new one is
written to FILE.new, synced and renamed. One program changes a file at a time.

Options:
  --shares SHARES    a file with a line for each house that has a share: its number, the bytes that it is guaranteed, and
                     the most that it may have, or - for no limit. Without it no house is guaranteed anything
  --whole            print long texts whole

Example:
  $ jsx-precompile catalogue list --shares examples/festival.shares examples/festival.catalogue
         0  page 21 of house 2: 378 bytes, template 1
       378  page 12 of house 1: 402 bytes, template 2
       780  page 22 of house 2: 278 bytes, template 3
  house 1: 402 bytes, guaranteed 500, at most 1500; room for a page of 746
  house 2: 656 bytes, guaranteed 900; room for a page of 892
  3 pages, 3 templates, 1058 of 2048 bytes
";

macro_rules! convert_help {
    ($name:literal, $from:literal, $words:literal, $said:literal) => {
        concat!(
            "jsx-precompile ",
            $name,
            " [--templates FILE --page FILE] TEMPLATES PAGE

",
            $words,
            "
With --templates and --page both are written to these files as bytes; without them it is said how long they are. What
goes up and down, or down and up, comes back byte for byte.

Options:
  --templates FILE    where the templates are written
  --page FILE         where page out is written

Example:
  $ jsx-precompile ",
            $name,
            " examples/",
            $from,
            ".templates examples/",
            $from,
            ".out
  ",
            $said,
            "
"
        )
    };
}

pub const UPGRADE: &str = convert_help!(
    "upgrade",
    "hall-old",
    "Makes templates of 80s, and a page out whose calls have numbers of two bytes, as version 0.1.0 wrote them, into what
is written now: 84s, with the kinds of their gaps worked out from their strings, and numbers of four bytes.
",
    "taken: 30 bytes of templates out, 334 of page out"
);

pub const DOWNGRADE: &str = convert_help!(
    "downgrade",
    "hall-new",
    "Makes templates and page out into what version 0.1.0 wrote, for hosts that read only 80s: without the kinds of gaps,
and with numbers of two bytes. A number over 65,535 is refused, and so is a kind that is not that of its gap.
",
    "taken: 24 bytes of templates out, 332 of page out"
);
