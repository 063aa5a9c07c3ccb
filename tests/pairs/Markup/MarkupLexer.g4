/* Tokens of a mark-up language: text with tags, whose attributes have values with references, comments on a channel of their own,
   sections of plain characters, and instructions to programs. */
lexer grammar MarkupLexer;

channels { REMARKS }

// Text and what interrupts it.
REMARK : '<!--' .*? '-->' -> channel(REMARKS) ;
PLAIN : '<![CDATA[' .*? ']]>' ;
HEADING_OPEN : '<?markup' Blank -> pushMode(TAG) ;
INSTRUCTION_OPEN : '<?' -> more, pushMode(INSTRUCTION_BODY) ;
END_OPEN : '</' -> pushMode(TAG) ;
OPEN : '<' -> pushMode(TAG) ;
REFERENCE : '&' NameStart NameRest* ';' ;
CODE_POINT : '&#' (Decimal+ | 'x' Hexadecimal+) ';' ;
LINE_END : '\r'? '\n' ;
TEXT : ~[<&\r\n]+ ;

fragment Blank : [ \t\r\n] ;
fragment Decimal : [0-9] ;
fragment Hexadecimal : [0-9a-fA-F] ;
fragment NameStart : [\p{L}_:] ;
fragment NameRest : NameStart | [\p{Nd}.\-·] ;

// Inside of a tag, up to the bracket that closes it.
mode TAG;

CLOSE : '>' -> popMode ;
EMPTY_CLOSE : '/>' -> popMode ;
HEADING_CLOSE : '?>' -> popMode ;
EQUALS : '=' ;
QUOTE : '"' -> pushMode(VALUE) ;
NAME : NameStart NameRest* ;
TAG_BLANK : Blank+ -> skip ;

// A value between quotes.
mode VALUE;

VALUE_REFERENCE : REFERENCE -> type(REFERENCE) ;
VALUE_CODE_POINT : CODE_POINT -> type(CODE_POINT) ;
VALUE_TEXT : ~[<&"]+ -> type(TEXT) ;
END_QUOTE : '"' -> type(QUOTE), popMode ;

// An instruction is one token, from its first bracket on.
mode INSTRUCTION_BODY;

INSTRUCTION : '?>' -> popMode ;
INSTRUCTION_PART : . -> more ;
