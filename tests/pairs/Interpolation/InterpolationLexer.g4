/* Tokens of a small language whose strings hold expressions, which can hold strings again. */
lexer grammar InterpolationLexer;

tokens { SHORT_NAME }

LET : 'let' ;
FUN : 'fun' ;
IF : 'if' ;
ELSE : 'else' ;
WHILE : 'while' ;
RETURN : 'return' ;
NULL : 'null' ;

ARROW : '=>' ;
ASSIGN : '=' ;
COMPARISON : '==' | '!=' | '<' '='? | '>' '='? ;
AND : '&&' ;
OR : '||' ;
ORELSE : '??' ;
NOT : '!' ;
PLUS : '+' ;
MINUS : '-' ;
TIMES : '*' ;
OVER : '/' ;
POWER : '^' ;
DOT : '.' ;
COMMA : ',' ;
SEMICOLON : ';' ;
PAREN_OPEN : '(' ;
PAREN_CLOSE : ')' ;
BRACKET_OPEN : '[' ;
BRACKET_CLOSE : ']' ;

// A brace opens a block here, and an expression in a string. Either way the brace that closes it leads back.
BRACE_OPEN : '{' -> pushMode(DEFAULT_MODE) ;
BRACE_CLOSE : '}' -> popMode ;
QUOTE : '"' -> pushMode(STRING) ;
RAW_OPEN : 'r"' -> more, pushMode(RAW) ;

NUMBER : Digit+ ('_' Digit+)* ('.' Digit+)? | '0x' Hexadecimal+ ;
NAME : Letter (Letter | Digit)* ;

LINE_COMMENT : '//' ~'\n'* ('\n' | EOF) -> channel(HIDDEN) ;
COMMENT : '/*' (COMMENT | .)*? '*/' -> channel(HIDDEN) ;
BLANKS : [ \t\r\n]+ -> skip ;

fragment Letter : [\p{L}\p{So}_] ;
fragment Digit : [0-9] ;
fragment Hexadecimal : [0-9a-fA-F] ;

mode STRING;

HOLE_OPEN : '${' -> pushMode(DEFAULT_MODE) ;
DOLLAR_NAME : '$' Letter (Letter | Digit)* -> type(SHORT_NAME) ;
ESCAPE : '\\' (["\\$nrt] | 'u{' Hexadecimal+ '}') ;
TEXT : ~["\\$]+ ;

// A string that is one token, without holes and escapes: r"..", with "" for a quote.
mode RAW;

RAW_TEXT : (~'"' | '""') -> more ;
RAW_STRING : '"' -> popMode ;

// More of what strings have.
mode STRING;

LONE_DOLLAR : '$' -> type(TEXT) ;
END_QUOTE : '"' -> type(QUOTE), popMode ;
