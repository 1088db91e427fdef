//! What `--help` prints.

/// The help.
pub fn text() -> String {
    HELP.to_string()
}

const HELP: &str = "\
usage: ravneket audit [OPTION]... FILE...
       ravneket write FILE [-o OUT] [--with CORRECTIONS] [--force] [-q]

Reads Fluent/TGrid text meshes with the proved reader. `audit` audits them with
the proved audit; `write` corrects one and writes it with the proved writer.
FILE may be `-` for standard input, once. Limits: 8388608 bytes, 65535 nodes,
faces and cells each, 64 zones.

audit:

  --format text     for people (default): FILE:LINE:COLUMN, the line of the
                    file with a mark under the word, and what to mend
  --format json     for programs: one object for each file, one to a line
  --format paper    what the report program prints, byte for byte (65536
                    bytes, 1024 nodes, faces and cells); with several files a
                    line `== FILE` stands before each report
  --limit N         show at most N faults of a file, 0 for all; 20 in text,
                    all in json if not given. Summaries always count all.
  --jobs N          use N threads (default: one for each core); the output
                    stays in the order of the files
  -q, --quiet       text: say nothing of clean files; show no progress
  --                what follows is a file, even if it starts with `-`
  -h, --help        print this
  -V, --version     print the version

Exit status of audit: the highest that applies
  0  all files are clean
  1  a file has faults
  2  a file was refused: it is no mesh that can be read (in paper also one
     over 65536 bytes)
  3  the command was called wrongly, or a file could not be read, is a folder
     or changed while it was read; the other files are still audited
If standard output is closed early, the command ends with the status so far.

JSON objects:
  file      the name as given; file_hex has its bytes where it is not UTF-8
  status    clean, faults, refused or error
  message   error: why the file could not be read
  refusal   refused: number, name, section, offset, line, column, message, mend
  dimension, totals {nodes, faces, cells}
  zones     one for each section in file order: section, kind, zone, first,
            last, type, type_name, element, faults
  total     how many faults there are
  kinds     those that occur: kind, name, faults (how many), mend
  faults    in the audit's order: kind, name, face or cell, then position (2,
            3), side and side_name (4; 0 right, 1 left) or count (9), zone,
            line, column, offset, message
All numbers in answers are decimal unless marked hex; lines and columns count
from 1, offsets and positions from 0. Columns count characters, or bytes where
the line is not UTF-8 up to the place.

write:
  -o, --output OUT  write the text to OUT, which gets its name when it is
                    whole, and tell what was changed; without it, or with
                    `-`, the text goes to standard output
  --force           overwrite OUT if it is there
  --with FILE       make the corrections of this file; `-` is standard input
  -q, --quiet       say nothing if all goes well
  --, -h, -V        as above
The text has all that the reader takes, each mesh in one way; reading it gives
the same mesh. Comments are left out, and so are other sections that are not
read (their ids are told): take these from the old file.

Corrections, one to a line; `#` starts a comment. Indices count from 1, the
positions of a face's nodes and the records of the zone list from 0, as in the
audit's answers. Numbers are decimal, as there, not hexadecimal as in the file.
  node N x VALUE         also y, z: a decimal, kept exactly, as in -12.5e-1
  face N right CELL      also left; 0 for none
  face N node P NODE     the node at position P
  face N nodes NODE...   all of its nodes, 2 to 4
  cell N element E       E is 1 to 6 or a name, such as hexahedron
  zone ID type T         T is a number or a name, such as pressure-outlet; its
                         faces or cells get the type too
  zone ID element E      also mixed (0); its cells get the element too
  zone ID id NEW         another zone id
  record P ...           the same for the record at place P of the zone list,
                         where several records share a zone id
Corrections are made from the first line to the last. A face or cell that no
longer fits its zone record is refused (18): make the zone mixed. No correction
moves an index: node and cell numbers are written as they are given, and audit
says whether the mesh has them.

Exit status of write
  0  the text is written
  2  refused: FILE is no mesh that can be read, or the corrected mesh has no
     text (18), or one over 8388608 bytes (19)
  3  the command was called wrongly, a correction is bad, OUT is there already,
     or a file could not be read or written
With 2 and 3 nothing is written, and standard error says why.

Colours are used on a terminal only, and not if NO_COLOR is set.
";
