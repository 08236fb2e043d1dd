//! What the command says about itself.

/// How it is called, a line for each command.
pub const USAGE: &str = "\
usage: abutfern rate FILE.. --width W [--json] [--jobs N] [--records OUT [--kind K]]
       abutfern show FILE.. [--json]
       abutfern health FILE.. --entropy H [--json]";

/// What `abutfern --version` prints.
pub const VERSION: &str = concat!("abutfern ", env!("CARGO_PKG_VERSION"), "\n");

/// What `abutfern --help` prints.
pub const HELP: &str = "\
abutfern: how much min-entropy a noise source gives, from captures of it

  abutfern rate FILE.. --width W [--json] [--jobs N] [--records OUT [--kind K]]
  abutfern show FILE.. [--json]
  abutfern health FILE.. --entropy H [--json]

A capture is a file with one symbol to a byte, as it was recorded, at most 16,777,216 of them; `-`
is standard input. Four estimates are made, of NIST SP 800-90B: MultiMCW (6.3.7) and MultiMMC
(6.3.9), each on the bits of the symbols and on the symbols themselves (literal). The board figure
is the smallest of the four, in bits of min-entropy per symbol. Unless all four ran there is none.
Each estimate has several predictors that compete: MultiMCW one to a window of 63, 255, 1023 or 4095
samples, MultiMMC one to a prefix of 1 to 16. Below the table stands which has won in the end, how
often it was right, and its share of right predictions, rounded down.

  --width W      bits in a symbol, 1 to 8; 0 and widths above 8 are refused, never guessed.
                 At width 1 every byte is 0 or 1; at a width of 2 to 8 the low W bits of each byte
                 are the symbol's bits, highest first. The literal estimates have no width
  --json         one JSON object per file, on a line of its own, for machines
  --jobs N       files rated side by side (default 2); each takes its capture twice and 64 MiB
  --records OUT  writes the records of all captures to a new file as well
  --kind K       the kind of the records: 2 (default), which tells who predicted, or 1, which does
                 not, for readers that know no other
  --             what follows is a file's name, whatever it begins with

MultiMCW needs 4,096 samples and MultiMMC 4, a sample being a bit or a symbol; an estimate with
fewer is not run. So a capture of fewer than 4,096 symbols has no board figure: in its place stands
which estimates did not run, and how many samples each had and needs. What cannot be rated is
refused with a number and a reason, and has no board figure either.

A record is an answer in 66 bytes (kind 1: in 61), for other programs. OUT has four for each
capture, in the order of the table, capture after capture as they were named; there are no names in
it. So if a capture cannot be read, OUT is not written; one that is refused with a number has its
records. OUT is there whole or not at all, and no file that is there already is replaced.

`show` prints the records in files, or from standard input, of either kind: each with its place
among them, from 0, the byte that it begins at, its kind and its answer, with a dash for what is not
in it. A winner is told by its number, since a record does not say of which estimator it is. Where a
record is bad, those before it are printed, and its place, its byte and what is wrong are said.

`health` runs the repetition count test of SP 800-90B 4.4.1 over captures of any length, each from
its first sample, a byte. The alarm stands after a sample where as many equal ones end with it as
the cutoff says. The cutoff is for a false alarm probability of 2^-20, so that in millions of
samples of a good source it may stand a few times. Printed are the first alarm's place, from 0, and
value, after how many samples the alarm stands, and in how many runs. A capture with fewer samples
than the cutoff can have no alarm, and counts as not tested.

  --entropy H    bits of min-entropy per sample, a decimal number from 1/64 to 8, such as the board
                 figure; it is rounded down to 1/64

The exit status is 0 if every file has a board figure (rate), only good records (show), or was
tested and has no alarm (health), 1 if one has not or something cannot be read or written, 2 for a
wrong call.

  abutfern rate board-17.bin --width 8
  abutfern rate lot-3/*.bin --width=4 --records lot-3.rec
  abutfern show lot-3.rec
  abutfern health board-17.bin --entropy 2.336441
  abutfern rate lot-3/*.bin --width=4 --json > lot-3.json
";
