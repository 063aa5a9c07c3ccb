/* Tokens of a file of settings: keys at the start of a line, and after the equals sign a value, which may go over many lines. */
lexer grammar SettingsLexer;

// Types that no rule has by itself.
tokens { KEY, STRING, DATE_TIME }

COMMENT : '#' ~[\r\n]* -> channel(HIDDEN) ;
BLANKS : [ \t]+ -> skip ;
NEWLINE : '\r'? '\n' ;

TABLES_OPEN : '[[' ;
TABLES_CLOSE : ']]' ;
TABLE_OPEN : '[' ;
TABLE_CLOSE : ']' ;
DOT : '.' ;
EQUALS : '=' -> pushMode(LINE_VALUE) ;

BARE_KEY : [A-Za-z0-9_\-]+ -> type(KEY) ;
QUOTED_KEY : (Quoted | Literal) -> type(KEY) ;

fragment Quoted : '"' (~["\\\r\n] | Escape)* '"' ;
fragment Literal : '\'' ~['\r\n]* '\'' ;
fragment Escape : '\\' (["\\bfnrt] | 'u' Four | 'U' Four Four) ;
fragment Four : Hexadecimal Hexadecimal Hexadecimal Hexadecimal ;
fragment Hexadecimal : [0-9a-fA-F] ;
fragment Digits : [0-9] ('_'? [0-9])* ;
fragment Date : [0-9] [0-9] [0-9] [0-9] '-' [0-9] [0-9] '-' [0-9] [0-9] ;
fragment Time : [0-9] [0-9] ':' [0-9] [0-9] ':' [0-9] [0-9] ('.' [0-9]+)? ;
fragment Zone : [Zz] | [+\-] [0-9] [0-9] ':' [0-9] [0-9] ;

// A value on the line of its key. The line's end leads back.
mode LINE_VALUE;

LINE_NEWLINE : NEWLINE -> type(NEWLINE), popMode ;
LINE_BLANKS : BLANKS -> skip ;
LINE_COMMENT : COMMENT -> channel(HIDDEN), type(COMMENT) ;

LIST_OPEN : '[' -> pushMode(LIST_VALUES) ;
INLINE_OPEN : '{' -> pushMode(INLINE_TABLE) ;
LONG_OPEN : '"""' NEWLINE? -> more, pushMode(LONG_STRING) ;
LONG_LITERAL_OPEN : '\'\'\'' NEWLINE? -> more, pushMode(LONG_LITERAL) ;
SHORT_STRING : (Quoted | Literal) -> type(STRING) ;
BOOLEAN : 'true' | 'false' ;
INTEGER : [+\-]? Digits | '0x' Hexadecimal+ | '0b' [01]+ ;
FLOAT : [+\-]? (Digits ('.' Digits)? ([eE] [+\-]? Digits)? | 'inf' | 'nan') ;
MOMENT : (Date ([Tt ] Time Zone?)? | Time) -> type(DATE_TIME) ;

// Values between brackets, over any number of lines.
mode LIST_VALUES;

LIST_SPACE : [ \t\r\n]+ -> skip ;
LIST_COMMENT : COMMENT -> channel(HIDDEN), type(COMMENT) ;
LIST_AGAIN : '[' -> type(LIST_OPEN), pushMode(LIST_VALUES) ;
LIST_CLOSE : ']' -> popMode ;
LIST_INLINE : '{' -> type(INLINE_OPEN), pushMode(INLINE_TABLE) ;
COMMA : ',' ;
LIST_LONG : LONG_OPEN -> more, pushMode(LONG_STRING) ;
LIST_LONG_LITERAL : LONG_LITERAL_OPEN -> more, pushMode(LONG_LITERAL) ;
LIST_STRING : SHORT_STRING -> type(STRING) ;
LIST_BOOLEAN : BOOLEAN -> type(BOOLEAN) ;
LIST_INTEGER : INTEGER -> type(INTEGER) ;
LIST_FLOAT : FLOAT -> type(FLOAT) ;
LIST_MOMENT : MOMENT -> type(DATE_TIME) ;

// Pairs between braces, on one line.
mode INLINE_TABLE;

INLINE_BLANKS : BLANKS -> skip ;
INLINE_CLOSE : '}' -> popMode ;
INLINE_COMMA : ',' -> type(COMMA) ;
INLINE_DOT : '.' -> type(DOT) ;
INLINE_KEY : (BARE_KEY | QUOTED_KEY) -> type(KEY) ;
INLINE_EQUALS : '=' -> type(EQUALS), mode(INLINE_VALUE) ;

// One value of such a pair, up to the comma or the brace after it.
mode INLINE_VALUE;

VALUE_BLANKS : BLANKS -> skip ;
VALUE_COMMA : ',' -> type(COMMA), mode(INLINE_TABLE) ;
VALUE_CLOSE : '}' -> type(INLINE_CLOSE), popMode ;
VALUE_LIST : '[' -> type(LIST_OPEN), pushMode(LIST_VALUES) ;
VALUE_STRING : SHORT_STRING -> type(STRING) ;
VALUE_BOOLEAN : BOOLEAN -> type(BOOLEAN) ;
VALUE_INTEGER : INTEGER -> type(INTEGER) ;
VALUE_FLOAT : FLOAT -> type(FLOAT) ;

mode LONG_STRING;

LONG_ESCAPE : '\\' . -> more ;
LONG_PART : ~'\\' -> more ;
LONG_CLOSE : '"""' -> type(STRING), popMode ;

mode LONG_LITERAL;

LONG_LITERAL_PART : . -> more ;
LONG_LITERAL_CLOSE : '\'\'\'' -> type(STRING), popMode ;
