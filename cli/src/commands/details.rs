//! What the help of each command says besides its form.

pub const CHECK: &str = "\
Checks the table set and tells L, the bits of a frame; also how the tones are loaded, and
whether a clip that is the wrong way round would show, or points that are turned by a quarter.
Refusals are 1 to 8.

example
  clevisroot check examples/bench-a.txt
";

pub const ORDER: &str = "\
Writes the re-ordered tone table t' and the re-ordered bit table b', 16 numbers a line. Points
are in the order of t'. In coded mode b' does not run beside t': its zeros come first, and two
1-bit tones share an entry of 2. Refusals are 1 to 8 and 10.

example
  clevisroot order examples/bench-a.txt --out order.txt
";

pub const ENCODE: &str = "\
Writes the points of a frame, x,y, a line a place in t' order, and tells the register for the
next symbol. What it prints is a POINTS file. The frame has L bits: bit k is in byte k / 8, at
weight 2 to the (k mod 8); unused high bits are 0. Refusals are 1 to 8 and 10 to 12.

With --start N, 0 to 7, the frame starts at bit N of its first byte: bit k is then in byte
(N + k) / 8, at weight 2 to the ((N + k) mod 8), and there are (N + L) / 8 bytes, rounded up.
Refusal 11 is another number of bytes than start and L need, a bit before the start or after the
end that is 1, or a start above 7.

The file may hold many frames, with an empty line between them. The register goes from one to
the next; a refused frame hands it back as it was. Totals come last. The exit status is that of
the first frame that is refused.

examples
  clevisroot encode examples/bench-a.txt examples/bench-a.hex --svg symbol.svg
  echo 15 | clevisroot encode examples/bench-a.txt - --register 0x1fffff
  echo 4005 | clevisroot encode examples/bench-a.txt - --start 6
";

pub const READ: &str = "\
Reads exact points back to the frame, hex, 32 bytes a line. What it prints is a FRAME file. The
register must be the one the points were written with; --register find works it out from the
monitored tones, 12 of one symbol or 32 of several that follow each other, or a few more where
silent tones stand between them; where it cannot, there is no frame and the status is 33. Uncoded,
the one it finds is the writer's if the points are not turned by a quarter. Refusals are 1 to 8 and
10 to 15; with 13, 14 and 15 the picture of --svg is drawn too and shows what was refused.

With --start N, 0 to 7, the frame starts at bit N of its first byte, as encode takes it, with zeros
before it and after it. The points do not tell the start. Refusal 11 is a start above 7.

The file may hold many symbols, with an empty line or a header x,y between them. The register
goes from one to the next; a refused symbol hands it back as it was, so that the symbols after it
may be refused too: --register find then finds it anew. Totals come last. The exit status is that
of the first symbol that is not read.

examples
  clevisroot read examples/bench-a.txt examples/bench-a.csv --out frame.hex
  clevisroot read examples/bench-a.txt examples/bench-a.csv --start 6
";

pub const NEAREST: &str = "\
Reads received points, whole numbers from -1023 to 1023 that may be off the grid: gives the frame
whose points are nearest, hex, and tells the total of the squared distances and how far each tone
is off. No frame has a smaller total; where several have the same, this is one of them. What it
prints is a FRAME file. The tones that are farthest off come first, 10 at most; --all shows every
loaded tone in t' order. The picture of --svg has the received points beside the decided ones, with
a line between them, and how far each tone is off over the sub-carriers.

Only tones with bits count. So the total never shows a wrong register, and often not a turned clip
either: one line says how many monitored tones are nearest to the points that the register gives
them. The register goes on as in read and decides neither frame nor total; --start N is as for read.
Refusals are 1 to 8, 10 to 12, and 23 for a coordinate beyond the range at any tone; with 23 the
picture is drawn too and shows where.

The file may hold many symbols, as for read. Totals come last, with the squared distances of each
tone added up over all symbols. The exit status is that of the first symbol that is refused.

examples
  clevisroot nearest examples/bench-a.txt examples/bench-a-stream.csv --svg nearest.svg
  clevisroot nearest examples/vdsl2-4096.txt received.csv --out frame.hex
";

pub const TURN: &str = "\
Reads the points as they came and turned by half a turn (every x,y as -x,-y), of coded tables turned
by a quarter too (every x,y as -y,x to the left, as y,-x to the right), and says in one sentence
what to tell the jointer, and what that rests on. The line quarter left says how the points are read
if that is how they came, and the other lines alike.

Coded, whether it is a quarter turn is sure: a symbol that was written and turned by a quarter is
never read, whatever the register (theorem quarter-any-register). Swapping the clips does not mend
it. To which side it is turned is told as straight is told from turned. Uncoded, quarter turns are
not told, and what is sure whatever the register holds if there is none.

Without --register the value at reset is assumed; then the verdict is only perhaps so, unless 12
monitored tones of one symbol agree, or 32 of several. With --register N it holds if N is the
writer's register. With --register find the register is worked out from the monitored tones, and
the verdict holds whatever the register was: 12 tones of one symbol are enough, or 32 of several
that follow each other. It may take a few more where silent tones stand between them. Coded, and
with an odd count of non-zero re-ordered entries, the trellis code tells without any register.
docs/FIND-THE-REGISTER.md has the reasons. --start N is the start of the frames that are shown, as
for read; no verdict depends on it.

Exit status: 0 straight, 32 turned, 37 turned by a quarter, its side told or not, 36 perhaps
(straight or turned), 33 cannot tell, 34 neither; 1 to 8 and 10 to 12 if the tables, the count of
points, the start or the register are refused. A file may hold many symbols, as for read;
the status is then that of all of them together.

examples
  clevisroot turn examples/bench-a.txt examples/bench-a-turned.csv --register 8388607
  clevisroot turn examples/vdsl2-4096.txt points.csv --register find
  clevisroot turn examples/five-twos.txt examples/five-twos-turned.csv --start 6
  clevisroot turn examples/bench-a.txt examples/bench-a-quarter.csv --register 8388607
";

pub const CLIP: &str = "\
Asks the first monitored tone in t', and no other, whether the clips are the wrong way round, before
the whole symbol is read: straight if its point is the one that its filler bits give, turned if it
is the opposite one, a quarter left or right if it is that one turned by a quarter, else neither:
filler bits give four points, and each of them is one of the four. Says so in one sentence, and what
that rests on. Where no tone is monitored it cannot tell. Where one is, turn says the same way of
every symbol that was written with these coded tables and this register, turned or not.

The register must be the one that the symbol was written with: with a wrong one the tone looks
like each of the four ways about one time in 4. Without --register the value at reset is assumed,
and the way is only perhaps so; with --register N it holds if the tables and N are the writer's and
this one point came as it was written but for a turn. The register is not found here (see turn --register find);
turn tells a quarter turn from the other ways whatever the register. All other points may be
anything, 0,0 for instance, but there must be one for each tone.

Exit status: 0 straight, 32 turned, 37 turned by a quarter, 36 perhaps one of them, 33 cannot tell,
34 neither; 1 to 8, 10 and 12 if the tables, the count of points or the register are refused; 65 if
the tables are uncoded, because the promise on turned symbols is of coded ones.

A file may hold many symbols, as for read. The register goes on by two draws for each tone with 0
bits, whatever the answer; after a symbol that is refused or neither, or another way round than those
before it, what is told by a register that was given is only perhaps so. The status is that of all of
them together, as for turn. --stop ends at a symbol that is refused, not at neither.

examples
  clevisroot clip examples/clip.txt examples/clip-turned.csv --register 4711
  clevisroot clip examples/clip.txt examples/clip-quarter.csv --register 4711
  clevisroot clip examples/bench-a.txt examples/bench-a-turned.csv
";

pub const REPORT: &str = "\
Counts, over the symbols of each pair, how many were refused, how many frames were read wrong and by
how many bits, and which symbol was refused first, symbols counted from 0; then says in a sentence
what that shows, and no more. The rate is of the bits of the frames that were read: L a frame where
the table set is known, else 8 a byte, of which some may not be used, so that it is told as about.
--html FILE writes a page that prints on one sheet a pair.

A LOG is of one pair. Lines pair: NAME and tables: FILE come first, both optional, and start: N with
tables:; then a line a symbol, the frame that was sent and the one that was read, both in hex, or the
word refused and a number (15 refused 14). A frame of no bytes is -. File names are taken from the
log's folder.

Or the points are read here, as read does, each symbol with the register that it was written with,
which the sent frames tell, so that none may be left out: then a log has the lines tables: FILE,
sent: FILE (frames) and points: FILE, register: N and start: N if needed, and no symbols. Without a
log, --tables, --sent and --points make a pair.

The exit status is 0 whatever the figures are. There is no report, and the status is that of the
refusal, if a pair has more than 65535 symbols (22); if two frames of a symbol have different
lengths, one is longer than any frame or is none of the table set, or the number of a refusal is 0
(11); if a table set is refused (1 to 8), a --start (11) or a --register (12).

examples
  clevisroot report examples/pair-7.log examples/pair-8.log --html report.html
  clevisroot report --tables examples/bench-a.txt --sent examples/bench-a-stream.hex --points examples/bench-a-stream.csv
";

pub const MAP: &str = "\
Tells the point of one label on a tone of 1 to 15 bits. The refusal is 16.

With --plain the library's second mapper answers, which nobody tuned: b bits by way of b - 2, down to
2, 3 or 5 (and 1 on its own), with no code or table of the first. Both give the same answers and
refusals for all inputs, which is proved. Text and JSON then say that it was the plain one.

examples
  clevisroot map 5 24
  clevisroot map 5 24 --plain
";

pub const POINT: &str = "\
Tells the label of one point on a tone of 1 to 15 bits. Refusals are 16 for the bits, then 13.

With --plain the library's second mapper answers, which nobody tuned: see clevisroot map --help.

examples
  clevisroot point 5 -3 5
  clevisroot point 5 -3 5 --plain
";

pub const FIGURES: &str = "\
Works out the bench figures of document 01, as amended, and prints each beside the page's value; then
what refuses a symbol that is turned by a quarter, either way, for each kind of coded tables.
The ones with a * are the page's small set. Exit status: 0 if all agree, else 35.

example
  clevisroot figures
";

pub const MAN: &str = "\
Prints the manual page in the form that man reads.

example
  clevisroot man > ~/.local/share/man/man1/clevisroot.1
";

pub const COMPLETIONS: &str = "\
Prints a script that completes commands, options and files. It is for bash, fish or zsh.

examples
  clevisroot completions bash > ~/.local/share/bash-completion/completions/clevisroot
  clevisroot completions fish > ~/.config/fish/completions/clevisroot.fish
  clevisroot completions zsh > ~/.zfunc/_clevisroot
";
