/* Tokens of questions to a database. Words may be written in any case; remarks go to a channel of their own. */
lexer grammar QueryLexer;

import QueryWords, QueryLetters;

channels { REMARKS, HINTS }

STAR : '*' ;
COMMA : ',' ;
SEMICOLON : ';' ;
DOT : '.' ;
OPEN : '(' ;
CLOSE : ')' ;
PLUS : '+' ;
MINUS : '-' ;
OVER : '/' ;
REST : '%' ;
JOINED : '||' ;
EQUAL : '=' ;
COMPARISON : '<>' | '!=' | [<>] EQUAL? ;

INTEGER : Digit+ ;
DECIMAL : Digit+ '.' Digit* Exponent? | '.' Digit+ Exponent? | Digit+ Exponent ;
STRING : '\'' (~'\'' | '\'\'')* '\'' ;
BITS : B '\'' [01]* '\'' ;
PARAMETER : ':' NAME | '?' ;
NAME_BEGIN : '"' -> more, mode(QUOTED_NAME) ;
TEXT_BEGIN : '$$' -> more, pushMode(LONG_TEXT) ;

HINT : '/*+' .*? '*/' -> channel(HINTS) ;
REMARK_BEGIN : '/*' -> more, pushMode(REMARK_TEXT) ;
LINE_REMARK : '--' ~[\r\n]* -> channel(REMARKS), type(REMARK) ;
BLANKS : [\p{White_Space}]+ -> channel(HIDDEN) ;

fragment Digit : [0-9] ;
fragment Exponent : E [+\-]? Digit+ ;

// A name between double quotes, where two of them stand for one.
mode QUOTED_NAME;

NAME_PART : (~'"' | '""') -> more ;
NAME_END : '"' -> type(NAME), mode(DEFAULT_MODE) ;

mode LONG_TEXT;

TEXT_PART : . -> more ;
TEXT_END : '$$' -> type(STRING), popMode ;

// Remarks can be in remarks; the outermost one makes the token.
mode REMARK_TEXT;

REMARK_OPEN : '/*' -> more, pushMode(INNER_REMARK) ;
REMARK_PART : . -> more ;
REMARK : '*/' -> channel(REMARKS), popMode ;

mode INNER_REMARK;

INNER_OPEN : '/*' -> more, pushMode(INNER_REMARK) ;
INNER_PART : . -> more ;
INNER_CLOSE : '*/' -> more, popMode ;
