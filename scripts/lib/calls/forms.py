"""What the calls of several commands share: a program with its texts, files of the examples, and what is told of words and files."""
from examples import page_frame, program_path

PARTS = b"listing, binary, symbols, flags, all"
HELP = b"\n\nFor more information, try '--help'.\n"

PROGRAM = b"""         IDENT   T1
         ABS
         ORG     100B
START    SA1     B1+3
         SX6     X1
         SA6     A1
         EQ      START
         END
"""
LISTING = b"""                                          1          IDENT   T1
                                          2          ABS
         000100                           3          ORG     100B
         000100 5111000003                4 START    SA1     B1+3
         000100 73610                     5          SX6     X1
         000100 54610                     6          SA6     A1
         000101 0400000100                7          EQ      START
                                          8          END
"""
BINARY = b"IDENT T1\n000100 51110000037361054610\n000101 04000001004600046000\n"
SYMBOLS = b"START    00000000000000000100 4 7\n"
FLAGS = b"0 flagged lines\n"
ALL = LISTING + BINARY + SYMBOLS + FLAGS

# the sections of its page: each line has its number for an identifier, each symbol its name, each word its address; digits of a word lead to the line that put
# them there, a filling to the statement behind it; fields of codes and their operands have classes; notes tell what is no part of a text
SECTIONS = b"""<section id="memory"><h2>Memory</h2><small class="t">central processor, 8 lines, 2 words, 1 symbol, 0 flagged lines</small>\
<small class="t">nominal   000000    66 words      -----------------------------------------------#</small>\
</section><section id="listing"><h2>Listing</h2><div class="run" style="--n:8"><div id="1"><div><span>                                          <a href="#1">1</a> </span>         IDENT   T1</div>
</div><div id="2"><div><span>                                          <a href="#2">2</a> </span>         ABS</div>
</div><div id="3"><div><span>         <i class="z"><a href="#w100">000100</a></i>                           <a href="#3">3</a> </span>         ORG     100B</div>
</div><div id="4"><div><span>         <a href="#w100">000100</a> 51<i class="i">1</i><i class="j">1</i><i class="K">000003</i>                <a href="#4">4</a> </span>\
<a href="#START">START</a>    <i title="Set Ai to (Bj) + K; A1 to A5 read to Xi, A6 and A7 write Xi">SA</i><i class="i">1</i>     <i class="j">B1</i>+<i class="K">3</i></div>
</div><div id="5"><div><span>         <i class="z">000100</i> <i class="s10">73<i class="i">6</i><i class="j">1</i>0                </i>     <a href="#5">5</a> </span>\
         <i title="Set Xi to (Xj)">SX</i><i class="i">6</i>     <i class="j">X1</i></div>
</div><div id="6"><div><span>         <i class="z">000100</i> <i class="s15">54<i class="i">6</i><i class="j">1</i>0                </i>     <a href="#6">6</a> </span>\
         <i title="Set Ai to (Aj); A1 to A5 read to Xi, A6 and A7 write Xi">SA</i><i class="i">6</i>     <i class="j">A1</i></div>
</div><div id="7"><div><span>         <a href="#w101">000101</a> 0400<i class="K">000100</i>                <a href="#7">7</a> </span>\
         <i title="Branch to K; the next instruction begins a word">EQ</i>      <i class="K"><a href="#4">START</a></i></div>
</div><div id="8"><div><span>                                          <a href="#8">8</a> </span>         END</div>
</div></div></section><section id="words"><h2>Words</h2><div>IDENT T1</div>
<div id="w100"><div><i class="z"><a href="#4">000100</a></i> <a href="#4">5111000003</a><a href="#5">73610</a><a href="#6">54610</a><small class="z">START    SA1 B1+3 | SX6 X1 | SA6 A1</small></div>
</div><div id="w101"><div><i class="z"><a href="#7">000101</a></i> <a href="#7">0400000100</a><a href="#8">4600046000</a><small class="z">         EQ START</small></div>
</div></section><section id="symbols"><h2>Symbols</h2><div id="START"><div><a href="#4">START</a>    <i class="z">00000000000000000100 </i><a href="#4">4</a> <a href="#7">7</a></div>
</div></section><section id="flags"><h2>Flags</h2><div>0 flagged lines</div>
</section><section id="instructions"><h2>Instructions</h2><small class="t">EQ     K          0400KKKKKK  1        Branch to K; the next instruction begins a word</small>\
<small class="t">SAi    Bj+K       51ijKKKKKK  1        Set Ai to (Bj) + K; A1 to A5 read to Xi, A6 and A7 write Xi</small>\
<small class="t">SAi    Aj         54ij0       1        Set Ai to (Aj); A1 to A5 read to Xi, A6 and A7 write Xi</small>\
<small class="t">SXi    Xj         73ij0       1        Set Xi to (Xj)</small></section>"""
PAGE = SECTIONS.join(page_frame("T1"))

NO_WORD = b"IDENT\n"

# a source in a file, one with a line that no source may have, and one that isn't there
DECK, TABBED, NONE = program_path("first.cps"), program_path("tabbed"), program_path("none.cps")


def refused(words, told):
    """A call by words that ask nothing: a script, or a source, isn't read."""
    return words, b"a A\n", 2, b"", b"error: " + told + HELP


def tells_more(name, place, what):
    """What is told of a line of a file that no source may have. The place is its number, with the column of a bad character: `2:14`."""
    name = name.encode()
    return b"%s:%s: %s (compass check %s tells more)\n" % (name, str(place).encode(), what, name)


def not_there(name):
    """What is told of a file that isn't there."""
    return b"cannot read " + name.encode() + b": No such file or directory\n"
