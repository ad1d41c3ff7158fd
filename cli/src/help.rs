//! What `--help` says.

pub const ALL: &str = "\
Dowrhesk makes a list of rows for a function with don't cares, and judges lists.
Every list and every verdict comes from proved code.

use:
  dowrhesk list FUNCTION.pla [-o OUT.pla]     write the function's list
  dowrhesk check FUNCTION.pla LIST.pla...     judge lists
  dowrhesk release FOLDER [--html OUT.html]   do both for every function in a folder

`dowrhesk COMMAND --help` tells more of each.

exit status:
  0  all lists are accepted
  1  a list was judged faulty
  2  an input was refused, or could not be read or written
";

pub const LIST: &str = "\
use: dowrhesk list FUNCTION.pla [-o OUT.pla] [--plain]

Writes the list of a function: it covers every on point and no off point, and no row
and no literal in it is too many. One line on standard error tells the rows, the
literals, and how many of the 4,096 records the function takes.

  FUNCTION.pla  a function as one-output PLA text; - is standard input
  -o OUT.pla    write there, not to standard output; an older file of that name is
                replaced only when the new one is whole
  --plain       give the proved program's own answer and nothing else: the list, or
                `refused N M`

The sizes are the proved program's: 1 to 16 columns, texts of at most 32,768 bytes,
4,096 records, and a list of at most 1,536 rows.

exit status: 0 written; 2 refused, or a file could not be read or written
";

pub const CHECK: &str = "\
use: dowrhesk check FUNCTION.pla LIST.pla... [--plain]

Judges each list by four conditions in this order, and tells the first that is broken:
no row covers an off point; every on point is covered; no literal is too many; no row is
too many. The row is told as it stands in its file, with its line; rows and columns
count from 1, and a point is written as its column digits.

  FUNCTION.pla  a function as one-output PLA text; - is standard input
  LIST.pla      a list of rows in the same form, every output sign 1; - is standard input
  --plain       give the proved program's own line for the function and each list:
                `accept`, `off ROW POINT`, `missing POINT`, `literal ROW COLUMN`,
                `cube ROW` or `refused N M`; the program takes the function text up to
                its `.e` and the list as one input of at most 32,768 bytes

The sizes are the proved program's: 1 to 16 columns, texts of at most 32,768 bytes,
4,096 records, and lists of at most 1,536 rows.

exit status: 0 all accepted; 1 a list was judged faulty; 2 an input was refused, or could
not be read
";

pub const RELEASE: &str = "\
use: dowrhesk release FOLDER [--html OUT.html]

Takes every function in a folder with the lists beside it, writes a new list for each,
and judges them all. A table at the end tells the columns of each function, and the
rows, literals and verdict of each list. Lists need not be the same; each must be honest.

  FOLDER           NAME.pla is a function: its NAME has no dot
                   NAME.WORD.pla is a list for it, as NAME.old.pla; each is judged
                   NAME.new.pla is written anew, then read back and judged
                   other files and folders are passed over
  --html OUT.html  write the same as one page, with a map of on, off, don't care and the
                   rows' cover for functions of up to 6 columns, a fault's point marked

A file is replaced only when its new content is whole. The sizes are those of
`dowrhesk check`.

exit status: 0 all accepted; 1 a list was judged faulty; 2 an input was refused, a list
has no function beside it, or a file could not be read or written
";
