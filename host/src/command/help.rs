//! What `sheet --help` prints.

pub const HELP: &str = "\
sheet: looks at, lists, opens and seals protected Excel 97-2003 workbooks

  sheet look FILE            shows whether the workbook is locked, and how
  sheet same-lock A B        shows whether two workbooks have the same lock; if
                             so, the password of one is the one to try on the
                             other
  sheet list FILE            lists its records
  sheet directory FILE       lists its sheets and where they start; this takes
                             no password
  sheet forecast FILE        shows what opening it will take; this takes no
                             password
  sheet open FILE -o OUT     opens it with its password, and writes the plain
                             stream to OUT
  sheet seal FILE -o OUT --lock LOCK
                             seals a plain stream under a new password, and
                             writes the sealed stream to OUT
  sheet refusals             lists what each number of a refusal means, and
                             what to try
  sheet --help, -h           prints this
  sheet --version, -V        prints the version

FILE is the Workbook stream of an .xls file, of up to 1 GiB, as A and B are. To
take it out of the .xls file, with gsf (Debian's package libgsf-bin):

  gsf cat book.xls Workbook > book.bin

A name of - is standard input in place of FILE, or of one of A and B, and
standard output in place of OUT. After -- every word is a name.

OPTIONS

  -o OUT, -oOUT, --output OUT
                             the file to write, for open and seal
  --password-file FILE       where the password is, for open and seal
  --lock, --key-size, --major
                             the lock, for seal
  -q, --quiet                for look and same-lock: prints nothing on standard
                             output; the exit status is the answer

LOOK reads the first mebibyte of FILE and no more. 'no' does not always mean
that the figures are plain: a book that was saved with a password and also as
'read-only recommended' or with a password to modify has a WriteProtect record
(0086) before its lock. It is locked, but look says no. Where the lock is in
the first mebibyte, a warning on standard error says so, and look --quiet ends
with 3. forecast reads all of FILE: its refusal 8 means that there is no lock
anywhere, and 9 that it is such a book.

SAME-LOCK reads the first mebibyte of A and of B and no more. It says yes if
both are locked and the bodies of their FILEPASS records have the same bytes,
as far as these are in the first mebibyte. Then the password that opened A is
the one to try on B: where both can be opened at all, a password passes the
check of one exactly if it passes that of the other. The exception: where both
records go on after the first mebibyte, the passwords may differ, and a warning
says so. 'no' does not mean that the passwords differ: except under XOR,
programs write a new salt with each lock, whatever its password is.

THE PASSWORD comes from the first of these that is there:

  --password-file FILE       the file holds the password in UTF-8 and nothing
                             else; one newline at its end is removed; a name
                             of - is standard input
  SHEET_PASSWORD             this environment variable, even if it is empty
  the terminal               the command asks, and does not show what you type;
                             seal asks twice

It can't be given as an argument: other users of the machine see the arguments
of every command in the process list, and shells keep them in their history.
The command wipes the password from its memory as soon as the stream is open
or sealed. It can't wipe the environment's own copy: anyone who may read the
environment of the command, or of the shell that started it, finds
SHEET_PASSWORD there.

A book that opens without asking for a password, though it is locked, has the
fixed password VelvetSweatshop. The command never tries a password by itself.

THE LOCK of seal goes into a zero record (id 0000, a body of zeros). A stream
that was locked before has one, where its FILEPASS was before it was opened.
The length of its body decides which lock fits:

  --lock cryptoapi           RC4 CryptoAPI, 106 to 1,098 bytes, with
    --key-size N             the key in bits, 40 to 128 in steps of 8, or 128
                             if this is left out; and
    --major N                version N.2, where N is 2, 3 or 4, or 4 if this is
                             left out
  --lock office97            Office 97 RC4, 54 bytes; its key has 40 bits
  --lock xor                 XOR, 6 bytes; its password has 1 to 15 characters,
                             none beyond U+00FF

Not every program opens every choice. LibreOffice accepts only passwords of 1
to 15 characters (one beyond U+FFFF counts as two) and, for cryptoapi, only 128
bits with version 3.2 or 4.2; only some programs open XOR with letters beyond
ASCII.

The lock cryptoapi says that the document summary, which is not in this
stream, is not enciphered. Where open said 'summary sealed yes' of a book, its
summary still is, under the old password: take it out of the .xls file.

XOR and keys of 40 bits do not protect a sheet from anyone who tries, nor do
keys of up to 64 bits protect it from anyone who has many machines. A warning
says so each time. The salt and the verifier of the other two locks are drawn
from the system's random source (/dev/urandom), anew for each sealing.

OUT appears only once all of it is on the disk. Until then what is written is
beside it in a file .sheet-*.part, which is removed if anything fails or you
press ctrl-C (only kill -9 and a power cut can leave it behind). If there is a
file OUT already, it is replaced then and not before, and keeps its
permissions; a new OUT of open can be read by its owner alone. FILE is never
changed, and OUT can't be FILE or the password file under another name.

PRINTED, in columns separated by tabs:

  look    locked: yes, no, or unknown (not a workbook stream, or cut off too
          early to show). For a locked one also, where they are known, lock,
          version, and key size in bits
  same-lock
          same lock: yes or no. For no also why: in which of the two look
          finds no lock or can't tell, or that both are locked and their
          records differ
  list    at: the offset of the record; id, hexadecimal; length of its body;
          clear: how many of the body's first bytes are never enciphered. One
          to three zero bytes after the last record are padding, and have no
          line. If a record can't be read, a last line says unreadable, and its
          offset
  directory
          place: of the sheet in the workbook, counted from 0; start: the
          offset of its BOF record in FILE. A FILE that is made to be slow can
          keep this busy for very long: ctrl-C ends it, nothing is written
  forecast
          output bytes: as many as FILE has; records: how many; enciphered body
          bytes: of all records, without what is never enciphered; block keys:
          how many are derived, 0 for XOR, or else one for the check of the
          password and one for each block of 1,024 bytes of FILE, counting a
          partial last one
  open    records: how many; lock; key size in bits; summary sealed: whether
          the document summary, which is not in this stream, is enciphered too;
          and output bytes, enciphered body bytes and block keys, as forecast
          gives them. If OUT is - this goes to standard error
  seal    the same, as open will give it for OUT

EXIT STATUS

  0       done; for look, whatever it shows; for look --quiet, locked; for
          same-lock, the same
  1       open, seal, directory or forecast was refused: standard error says
          'refused, NUMBER:' and why, and OUT is not written; or list found a
          record that can't be read; for look --quiet, not locked; for
          same-lock, not the same
  2       anything else: the arguments, the input, the output, what was typed
          as a password, or no random source; standard error says which, and
          what to try
  3       for look --quiet, unknown, or look says no but a FILEPASS record
          follows

EXAMPLES

  sheet look book.bin
  sheet same-lock last.bin book.bin
  sheet open book.bin -o plain.bin
  sheet seal plain.bin -o sealed.bin --lock cryptoapi

From a locked book.xls to a plain one, with gsf. The stream must be in a file
named Workbook:

  gsf cat book.xls Workbook > book.bin
  sheet open book.bin -o Workbook
  gsf createole plain.xls Workbook

plain.xls has the sheets alone: the document summary and macros stay behind in
book.xls.
";
