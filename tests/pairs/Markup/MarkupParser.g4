/* Documents of a mark-up language: elements inside of each other, with attributes. */
parser grammar MarkupParser;

options { tokenVocab = MarkupLexer; }

document : heading? between* element between* EOF ;

heading : HEADING_OPEN attribute* HEADING_CLOSE ;

between : LINE_END | INSTRUCTION ;

element
    : '<' NAME attribute* CLOSE content '</' close = NAME CLOSE # Pair
    | '<' NAME attribute* EMPTY_CLOSE                           # Single
    ;

attribute : NAME EQUALS value ;

value : QUOTE parts += part* QUOTE ;

part : TEXT | reference ;

content : (piece | element | between)* ;

piece : TEXT+ | reference | PLAIN ;

reference : REFERENCE | CODE_POINT ;
