//! What `--help` prints.

pub const GENERAL: &str = "\
circtool: scripts, explanations, states, access pages, test loads, comparisons and orders for the monitor circmon

Usage: circtool SUBCOMMAND [OPTIONS] [FILE]

  asm      a script to the bytes that the program circmon reads
  dis      bytes back to a script, exactly
  explain  a run: each request and reply in words, and why it was refused
  run      a run: one number for each request and taking-back; can write the image after it
  show     the state in an image
  page     the access page of an object in an image
  load     a test load from a seed, as a script or as bytes
  compare  two images: equal, or where they differ and which requests show it
  orders   a list of gets: whether their order matters for the state that they leave
  help     this text, or that of a subcommand

'circtool help SUBCOMMAND' says more. --version prints the version.
Where no file or '-' is given, standard input is read; 'page' with objects needs the image or '-' before them, and
'load' reads only what --table names. No image says the profile of its site: where that is not the widest, '--profile'
gives it to 'show', 'page', 'compare' and 'orders', and for bytes to 'run' and 'explain'.
Every reply, taking-back, acceptance, page, load, comparison of two levels and answer on orders comes from the proved
library.

Exit status: 0 fine; 1 a table, image or load is refused, an object is not live, two images differ, or the order of gets
matters; 2 usage, or input that cannot be read.
";

pub const ASM: &str = "\
Usage: circtool asm [FILE]

Writes the bytes of a script to standard output: 42 bytes of table, then six bytes for each request.

A script has first the subjects, then the requests, one on a line; '#' begins a comment. Needs are a set in braces.
Before the subjects may stand the profile of the site: how many subjects and objects are in use, the highest class, and
the needs. What is outside it in a request gets 2.

  profile subjects 4 objects 10 class 3 needs {0,1}
  subject 1 class 3 needs {0,1}    enrols s1; a subject that no line names is absent
  subject 2 class 0 needs {}
  s1 create o0                     s1 create o1 with e
  s1 create o2 under o0            s1 create o3 under o2 with e
  s1 level o0 class 2 needs {0}    s1 level o0 class 0 needs {}
  s1 get r o0                      s1 release r o0
  s1 give s0 r o1                  s1 rescind s0 r o1
  s1 delete o0
  s1 companies o0 1 0 0 2          the company of o0 in each of the four conflict classes, class 1 first; 0 for none
  take back                        takes back the latest request in the journal; for 'run' and 'explain'
  bytes 50 80 00 00 00 01          six raw bytes in hexadecimal; fewer only in the last line
  table-bytes 88 00 ..             the table by its 42 bytes, in place of the subjects; fewer (or 'none') only where
                                   no request follows

Subjects are 0 to 15, objects 0 to 63, classes, needs and companies 0 to 15, modes r, w, a, e. A profile has 1 to 16
subjects, 1 to 64 objects, a class from 0 to 15 and any needs. Between words stand spaces and tabs. A byte-order mark
before the script is left out.

An object that is created under another one is its child. Only a delete ends that, and a delete of the parent deletes
everything below it.

A profile has no bytes, and circmon runs under the widest one, which a script without a profile has too: a script with
another is not written. Nor is one with 'take back': taking back is no request and has no bytes.

Example: circtool asm examples/marked-run.circ | target/bin/circmon
('tools/program circmon', in the root of the repository, proves and builds the program circmon.)

Exit status: 0 fine; 2 usage, a file that cannot be read, or errors in the script, each with its line and column.
";

pub const DIS: &str = "\
Usage: circtool dis [FILE]

Writes a script that stands for the bytes exactly: 'circtool asm' gives the same bytes again, for every input.
A piece that is no request is written as 'bytes ..' with the reason, a table that is refused as 'table-bytes ..'.

Example: circtool dis crates/circmon/stdin

Exit status: 0 fine; 2 usage, or a file that cannot be read.
";

pub const EXPLAIN: &str = "\
Usage: circtool explain [--script | --bytes] [--profile PROFILE] [FILE]

Runs the requests and prints each with its reply in words and, for a refusal, its cause in the state before the request:
the right or ownership that is missing, the absent label, the new label that does not dominate the old one, the
clearance that does not dominate a label, the two objects that stand in the way of the star property, those that
stand in the way of the wall of competing companies, the parent that is not live, or the parent or child whose label
does not fit. Of two levels it says how the one compares with the other, 'below'
(only the other one dominates) or 'apart' (neither does), and what is missing: the class, needs, or both. A level that
is equal to the other or above it dominates it, and that is not refused. Of the wall it says who holds what, the
companies of both objects in the conflict class, and the rule. Of what is outside the profile it says what is in use.
Of a delete that is granted it says which objects below go with it.

A script may take back requests, with the line 'take back'. Then explain says which request that was and what its object
is again; or, with 17, that there is none to take back. The journal keeps up to 32 requests with reply 0, the oldest
gives way, and the latest is taken back first. A delete that takes objects below empties it, and cannot be taken back.

The input is a script or bytes as circmon reads them. Without a flag the first byte decides: 00, 80 to FF, or no byte at
all is bytes, any other a script, and so is what begins with a byte-order mark. An accepted table is never taken for a
script. 1,458 bytes are the size of an image, and also of a table and 236 requests: where they are accepted as an image,
they are taken for one and not run, unless --bytes says so; else they are run, and it is said. circmon stops after 4,096
requests, circtool does not. Where the input is a script, the line of each request stands beside its step.

  --profile PROFILE   the profile of the site, where the script does not state it: as in a script, in one word of the
                      command line, 'subjects 4 objects 10 class 3 needs {0,1}'

Example: circtool explain examples/four-answers.circ

Exit status: 0 fine, also where requests are refused; 1 the table is refused; 2 usage, a file that cannot be read, or
errors in the script.
";

pub const RUN: &str = "\
Usage: circtool run [--script | --bytes] [--profile PROFILE] [--image OUT] [FILE]

Runs the requests and prints one reply for each, as circmon does; for a line 'take back' of a script 0, or 17 where
there is nothing to take back. With --image the image after the run is written to the file OUT, whole or not at all, for
'circtool show' and 'circtool compare'. It has the state after the takings-back, and no journal. Where the input is
bad, OUT is as it was.

The input is a script or bytes as circmon reads them. Without a flag the first byte decides: 00, 80 to FF, or no byte at
all is bytes, any other a script, and so is what begins with a byte-order mark. 1,458 bytes are the size of an image,
and also of a table and 236 requests: where they are accepted as an image, they are taken for one and not run, unless
--bytes says so; else they are run, and it is said. circmon stops after 4,096 requests, circtool does not.

  --profile PROFILE   the profile of the site, where the script does not state it: as in a script, in one word of the
                      command line, 'subjects 4 objects 10 class 3 needs {0,1}'

Example: circtool run examples/marked-run.circ --image marked.img

Exit status: 0 fine, also where requests are refused; 1 the table is refused; 2 usage, a file that cannot be read or
written, or errors in the script.
";

pub const SHOW: &str = "\
Usage: circtool show [--anyway] [--profile PROFILE] [IMAGE]

Prints the state in an image: counts, enrolled subjects with clearances, live objects with owner, label or 'no label',
companies and parent, and each subject that has rights or holds accesses on them. An object stands behind the one that
it is under, two places further in. Of a refused image it prints the number, the check in words and where it failed;
with --anyway also the fields as they stand, without what is marked absent.

  --profile PROFILE   the profile of the monitor that wrote the image, which does not say it: as in a script, in one
                      word of the command line, 'subjects 4 objects 10 class 3 needs {0,1}'; else it is the widest

Colour is used only where standard output is a terminal and NO_COLOR is not set or empty.

Example: circtool show marked.img

Exit status: 0 fine; 1 the image is refused; 2 usage, or a file that cannot be read.
";

pub const PAGE: &str = "\
Usage: circtool page [--profile PROFILE] IMAGE OBJECT ..
       circtool page [--profile PROFILE] --all [IMAGE]

Prints the access page of each object, o0 to o63, or with --all of every live one: under its owner, its label or 'no
label', its companies and its parent the page as the library writes it, a line for each subject and a last line.

  01 rwae r--- 1       s1 has the rights r, w, a and e and holds r, which is one access
  to 01 00 00 00 01    one subject holds r, none w, a or e; the total is one access

Where objects are named, so is the image; '-' is standard input. Where one of them is not live, no page is
printed.

  --profile PROFILE   the profile of the monitor that wrote the image, which does not say it: as in a script, in one
                      word of the command line, 'subjects 4 objects 10 class 3 needs {0,1}'; else it is the widest

Example: circtool page marked.img o1

Exit status: 0 fine; 1 the image is refused, or an object is not live; 2 usage, or a file that cannot be read.
";

pub const LOAD: &str = "\
Usage: circtool load SEED COUNT [--table FILE] [--bytes]

Writes COUNT requests that the library makes from SEED, as a script, with a first line that says seed and count. The
same seed gives the same requests everywhere, and a longer load begins with a shorter one of the same seed. Every
request is well formed under the widest profile, and a script with another is no table for it; most are refused, since
every field is drawn. No request of a load sets companies or creates an object under another one.

  --table FILE   puts the subjects of FILE in front: those of a script, whose other lines are left out, or those of a
                 table in bytes; '-' is standard input
  --bytes        writes bytes: with --table what circmon reads, 42 bytes of table, then six bytes for each request;
                 without it the requests alone, to be put behind a table

SEED is 1 to 4294967295; 0 is refused with 15. COUNT is 0 to 1000000. circmon stops after 4,096 requests, circtool does
not. Without --table the script names no subject: it is put behind lines that do; alone, every request gets 3.

Example: circtool load 7 20 --table examples/seeded-load.circ | circtool explain

Exit status: 0 fine; 1 the seed is 0, or the table is refused; 2 usage, a file that cannot be read, an image where a
table is wanted, errors in the script, or a profile in it.
";

pub const COMPARE: &str = "\
Usage: circtool compare [--profile PROFILE] A B

Compares two images, of monitors of one profile. Equal: every further list of requests draws the same replies from both,
which is proved. Different: where, in words, and requests on which the two reply differently, with both replies to each:
at most four requests, proved. Where the two differ in a parent, these are deletes and creates alone, at most two.

  --profile PROFILE   the profile of both monitors, which no image says: as in a script, in one word of the command
                      line, 'subjects 4 objects 10 class 3 needs {0,1}'; else it is the widest

Example: circtool compare before.img after.img

Exit status: 0 equal; 1 different; 2 trouble: usage, a file that cannot be read, or an image that is refused.
";

pub const ORDERS: &str = "\
Usage: circtool orders [--bytes] [--profile PROFILE] IMAGE [SCRIPT]

Says whether it matters in which order gets come, as after a power return, when tasks take accesses in the order in
which they wake: whether all orders of the gets in SCRIPT leave equal states, from the state in IMAGE on. Replies may
differ between orders and are not compared. The same get may stand in it twice.

Where the order matters, two gets are named with their lines: each is granted if it came alone, and together they would
break the star property or the wall of competing companies. It says which of the two: which label would have to dominate
which and how they compare, or which companies stand against each other; and of the two orders that begin with these
gets their replies and where the states that they leave differ. Where there are no two such gets, all orders leave equal
states. Both are proved.

SCRIPT has one get on a line, as 's1 get r o0', and no subject, since the image says who is enrolled. It takes nothing
back. It may state the profile of the monitor that wrote the image.

  --bytes             SCRIPT is bytes, six for each get, without a table
  --profile PROFILE   the profile, where the script does not state it: as in a script, in one word of the command line,
                      'subjects 4 objects 10 class 3 needs {0,1}'

Example: circtool orders wake-up.img examples/wake-up-gets.circ

Exit status: 0 the order does not matter; 1 it does; 2 trouble: usage, a file that cannot be read, an image that is
refused, errors in the script, a request that is no get, or more than 4,096 gets.
";

/// The help of a subcommand.
pub fn of(subcommand: &str) -> Option<&'static str> {
    Some(match subcommand {
        "asm" => ASM,
        "dis" => DIS,
        "explain" => EXPLAIN,
        "run" => RUN,
        "show" => SHOW,
        "page" => PAGE,
        "load" => LOAD,
        "compare" => COMPARE,
        "orders" => ORDERS,
        _ => return None,
    })
}
