//! What is said to who asks how to call the desk.

use crate::args::Command;

const ALL: &str = "\
Reads a chart of a program, in words or in bytes, and says which of its memory references hit the cache, which miss, which
hit once their line is loaded, and which cannot be told.

    ./desk new > mine.txt                       a chart in words to begin with
    ./desk report mine.txt                      each node with its block, set and class, and the map of sets
    ./desk totals mine.txt                      two bounds on the cost, each node's share, and what facts are worth
    ./desk deadline mine.txt                    whether every walk keeps to a deadline in microseconds; status 3 if not
    ./desk why mine.txt NODE                    why a node has its class
    ./desk draw mine.txt -o mine.svg            the chart as a picture
    ./desk page mine.txt -o mine.html           all of it on one page, to hand on
    ./desk compare mine.txt other.txt           what differs between two charts, and which lines cause it
    ./desk chart mine.txt -o mine.chart         the chart in bytes, for the proved program and for C
    ./desk text mine.chart                      a chart of bytes in words
    ./desk refusal 9                            what a refusal means, and what to do

'-' in the place of a file is standard input. '--json' gives every answer for a script. './desk COMMAND --help' says more of
a command, './desk --version' the version. docs/TEXT-CHARTS.md has the words of a chart, docs/DESK.md the desk.

Exit status: 0 after an answer, 1 after a refusal or a fault in the text, or where something is missing that the answer needs,
2 where the call is wrong or a file cannot be read or written, 3 after the answer that a deadline is not met.
";

const REPORT: &str = "\
./desk report FILE [--json]

The cache in words; then each node with what it does, where it leads, its block and set, and its class:

    hit         on every walk, each time, the block is in the cache
    miss        on every walk, each time, it is not
    kept        once the block is loaded it stays: on any walk one of its kept touches misses at the most
    unsure      none of these can be told; './desk why FILE NODE' says why
    unreached   no walk comes there

Then how many there are of each, and the map of sets: which blocks compete for the ways of a set. A set with more blocks
than ways is over-full.

    ./desk report charts/winch-as-built.txt
";

const TOTALS: &str = "\
./desk totals FILE [--hit COST] [--miss COST] [--json]

Two bounds: the references of a walk cost no less than the low total and no more than the high one, if each node is visited
as often as the text says; what instructions take beside is not counted. Then what each node adds, the largest share of the
high total first. A kept touch adds a hit for each visit; what the first load of its block costs more than a hit has a line
of its own, once for each block. Costs are those of the line 'cost', unless --hit or --miss give others. Each node needs its
visits.

Where the text has lines 'fact' or 'loop', two bounds for walks that keep these too, and go along the arrows. glpsol (Debian's
glpk-utils) finds certificates for them, and the proved function has to accept each; then the facts that the high bound
rests on, and how much higher it is without each. Nodes need no visits then.

    ./desk totals charts/winch-facts.txt
    ./desk totals charts/winch-as-built.txt
    ./desk totals charts/winch-as-built.txt --miss 10
";

const WHY: &str = "\
./desk why FILE NODE [--json]

Why a node is called what it is called: the must and the may age on arrival, the arrows that they came by, and the blocks of
its set that are touched since its block was: if they are fewer than the ways, they cannot push it out. In a chart of bytes
the nodes are called n0, n1 and so on.

    ./desk why charts/winch-as-built.txt depth
";

const DEADLINE: &str = "\
./desk deadline FILE [--hit COST] [--miss COST] [--json]

Whether every walk keeps to the deadline of the text: MET, or NOT MET with the high figure and by how much it is too late. The
text says how long a cycle takes, what is added once for all that is no memory reference, and the deadline:

    clock     period 0.125 us  overhead 2 us
    deadline  latest 120 us

or, for a window, 'deadline earliest 10 us latest 120 us'. Costs are cycles then. Where the text has facts, the bounds that
they give count, and else the totals. No figure that is shown is rounded; where the proved function, which rounds, comes to
another verdict, it is said, and the deadline counts as not met. The exit status is 0 where it is met and 3 where it is
not, so that a build can be failed by it.

    ./desk deadline charts/winch-swapped.txt
";

const DRAW: &str = "\
./desk draw FILE -o PICTURE [--dot] [--json]

The chart as a picture, in SVG, which every browser shows: each node with its name, what it does, its blocks and sets, and
its class, told by a word, an outline and a colour. A dot leads to the entry, whose border is bold; a ringed dot is where
the program ends; what no walk comes to is dashed. Where an arrow would lead far through a large chart, a tag 'to NAME'
stands in its place. '-o -' writes to standard output.

Where all is in it is found by dot, of Graphviz (Debian's graphviz). --dot writes its source and no picture, and needs no
Graphviz; without -o to standard output.

    ./desk draw charts/winch-as-built.txt -o winch.svg
    ./desk draw charts/loop.txt --dot
";

const PAGE: &str = "\
./desk page FILE -o PAGE [--hit COST] [--miss COST] [--json]

Writes all of a chart on one page of HTML, to hand on: the cache in words, the verdict on the deadline, the picture, the nodes
with their classes, the map of sets, totals and shares, and what is proved and what is assumed, with the chart's checksum. It
is one file without a script, opens from disk, and prints on A4. What the text does not say, as costs or a deadline, is
said to be missing there. '-o -' writes to standard output. The picture needs dot, as './desk draw --help' says.

    ./desk page charts/winch-as-built.txt -o winch.html
";

const COMPARE: &str = "\
./desk compare FILE FILE [--hit COST] [--miss COST] [--json]

Two charts side by side, the first called A and the second B. Nodes are matched by their names: those whose classes differ,
how many are the same, and those that only one chart has. Then both totals, where both texts have costs and visits, and the
bounds, where there are facts. Costs are those of each text, unless --hit or --miss give others for both.

Then the lines that differ, comments, spaces and the order of lines aside, with the words that differ marked; and of each,
what it causes alone: what A is with this one line as B has it. 40 lines are tried at the most.

Whether something differs or not, the exit status is 0: it is an answer. '--json' lists what differs.

    ./desk compare charts/winch-as-built.txt charts/winch-swapped.txt
";

const CHART: &str = "\
./desk chart FILE -o CHART [--json]

Writes the chart that a text says, in bytes: by the proved writer, and read back by the proved reader. '-o -' writes to
standard output. Names, costs, visits, facts and times are not part of a chart of bytes.

    ./desk chart charts/loop.txt -o loop.chart
";

const TEXT: &str = "\
./desk text CHART [-o FILE] [--json]

Puts a chart of bytes into words. The nodes are called n0, n1 and so on.

    ./desk text charts/loop.chart
";

const NEW: &str = "\
./desk new [--json]

Prints a chart in words, with what each line is for, to begin with.

    ./desk new > mine.txt
";

const REFUSAL: &str = "\
./desk refusal [NUMBER] [--json]

What a refusal means, and what to do. Without a number, the list of them.

    ./desk refusal 9
";

pub fn help(command: Option<Command>) -> &'static str {
    match command {
        None => ALL,
        Some(Command::Report) => REPORT,
        Some(Command::Totals) => TOTALS,
        Some(Command::Deadline) => DEADLINE,
        Some(Command::Why) => WHY,
        Some(Command::Draw) => DRAW,
        Some(Command::Page) => PAGE,
        Some(Command::Compare) => COMPARE,
        Some(Command::Chart) => CHART,
        Some(Command::Text) => TEXT,
        Some(Command::New) => NEW,
        Some(Command::Refusal) => REFUSAL,
    }
}
