/* Notes: headings, paragraphs, lists, quotations and code. */
parser grammar NotesParser;

options { tokenVocab = NotesLexer; }

notes : (EMPTY | block)* EOF ;

block
    : HEADING text LINE_END                                  # Heading
    | RULE                                                   # Line
    | items                                                  # List
    | quotation                                              # Quoted
    | FENCE_OPEN CODE_LINE* FENCE_CLOSE                      # Fence
    | CODE_LINE+                                             # Code
    | DEFINITION_OPEN URL TITLE? LINE_END                    # Definition
    | paragraph                                              # Sentences
    ;

items : (BULLET lines)+ | (ORDINAL lines)+ ;

quotation : (QUOTATION+ (lines | EMPTY | HEADING text LINE_END | BULLET lines))+ ;

paragraph : lines ;

lines : text (LINE_END | BREAK) (text (LINE_END | BREAK))* ;

text : inline+ ;

inline
    : STRONG inner+ STRONG                # Strong
    | EMPHASIS softer+ EMPHASIS           # Emphasis
    | UNDERLINED (plain | CODE)+ UNDERLINED  # Underlined
    | link                                # Linked
    | (CODE | AUTOLINK)                   # Verbatim
    | plain                               # Words
    ;

inner : EMPHASIS plain+ EMPHASIS | plain | link | CODE | UNDERLINED plain+ UNDERLINED ;

softer : STRONG plain+ STRONG | plain | link | CODE ;

plain : (WORD | ESCAPE | SPACE)+ ;

link
    : LINK_OPEN label (target | REFERENCE | BRACKET_CLOSE)
    | picture
    ;

picture : PICTURE_OPEN label (target | REFERENCE | BRACKET_CLOSE) ;

target : LINK_MIDDLE URL TITLE? LINK_CLOSE ;

label : (plain | CODE | STRONG plain STRONG | EMPHASIS plain EMPHASIS)* ;
