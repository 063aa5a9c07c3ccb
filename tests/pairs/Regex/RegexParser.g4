/* Regular expressions with names, one on each line. */
parser grammar RegexParser;

options { tokenVocab = RegexLexer; }

expressions : definition* EOF ;

definition : NAME DEFINES expression? LINE_END ;

expression
    : expression (STAR | PLUS | QUESTION | count) (QUESTION | PLUS)?   # Repeated
    | expression expression                                         # Sequence
    | <assoc=right> expression BAR expression                       # Choice
    | expression BAR                                                # Optional
    | group                                                         # Grouped
    | bracket                                                       # OneOf
    | QUOTE_OPEN CHARACTER* QUOTE_CLOSE                             # Quoted
    | atom                                                          # Single
    ;

count : COUNT_OPEN least = NUMBER (COMMA most = NUMBER?)? COUNT_CLOSE ;

group : opening expression? GROUP_CLOSE ;

opening : GROUP_OPEN | LOOK_OPEN | PLAIN_OPEN | FLAGS_OPEN | NAMED_OPEN ;

atom
    : edge
    | ANY
    | START
    | END
    | SHORT_CLASS
    | PROPERTY
    | BORDER
    | BACK
    ;

character : CONTROL | CODE | ESCAPED ;

bracket : CLASS_OPEN members (BOTH members)* CLASS_CLOSE ;

members : member* RANGE? ;

member
    : first = edge RANGE last = edge     # Span
    | edge                               # Alone
    | (SHORT_CLASS | PROPERTY | POSIX)   # Named
    | bracket                             # Nested
    ;

edge : CHARACTER | character ;
