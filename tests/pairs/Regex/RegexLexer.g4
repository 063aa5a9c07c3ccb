/* Tokens of regular expressions: what a character means depends on whether it is in a class, in a count, or between \Q and \E. */
lexer grammar RegexLexer;

NAME : [a-zA-Z_] [a-zA-Z_0-9\-]* ;
DEFINES : ':=' [ \t]* -> pushMode(PATTERN) ;
REMARK : '//' ~[\n]* -> channel(HIDDEN) ;
BLANKS : [ \t\r\n]+ -> skip ;

mode PATTERN;

BAR : '|' ;
STAR : '*' ;
PLUS : '+' ;
QUESTION : '?' ;
ANY : '.' ;
START : '^' ;
END : '$' ;
COUNT_OPEN : '{' -> pushMode(COUNT) ;
CLASS_OPEN : '[' '^'? -> pushMode(CLASS_BEGIN) ;
GROUP_OPEN : '(' ;
LOOK_OPEN : '(?' '<'? [=!] ;
PLAIN_OPEN : '(?:' | '(?>' ;
FLAGS_OPEN : '(?' [imsx]* ('-' [imsx]+)? ':' ;
NAMED_OPEN : '(?<' Letter (Letter | Digit)* '>' ;
GROUP_CLOSE : ')' ;
INLINE_REMARK : '(?#' ~')'* ')' -> skip ;
QUOTE_OPEN : '\\Q' -> pushMode(QUOTATION) ;
SHORT_CLASS : '\\' [dDsSwWvhR] ;
BORDER : '\\' [bBAzZG] ;
PROPERTY : '\\' [pP] (Letter | '{' '^'? (Letter | Digit | [_= ])+ '}') ;
BACK : '\\' [1-9] Digit* | '\\k<' Letter (Letter | Digit)* '>' ;
CONTROL : '\\' [tnrfae0] | '\\c' [A-Z] ;
CODE : '\\x' Hexadecimal Hexadecimal | '\\x{' Hexadecimal+ '}' | '\\u' Hexadecimal Hexadecimal Hexadecimal Hexadecimal ;
ESCAPED : '\\' [\p{P}\p{S} ] ;
LINE_END : '\n' -> popMode ;
JOINED : '\\\n' [ \t]* -> skip ;
CHARACTER : ~[|*+?.^${}[\]()\\\n] ;
LOOSE : [}\]] -> type(CHARACTER) ;

fragment Letter : [a-zA-Z] ;
fragment Digit : [0-9] ;
fragment Hexadecimal : [0-9a-fA-F] ;

// Directly behind the bracket of a class a closing bracket is a character.
mode CLASS_BEGIN;

FIRST_BRACKET : ']' -> type(CHARACTER), mode(CLASS) ;
FIRST_POSIX : Posix -> type(POSIX), mode(CLASS) ;
FIRST_ESCAPED : ESCAPED -> type(ESCAPED), mode(CLASS) ;
FIRST_SHORT : SHORT_CLASS -> type(SHORT_CLASS), mode(CLASS) ;
FIRST_PROPERTY : PROPERTY -> type(PROPERTY), mode(CLASS) ;
FIRST_CODE : CODE -> type(CODE), mode(CLASS) ;
FIRST_CONTROL : CONTROL -> type(CONTROL), mode(CLASS) ;
FIRST_NESTED : '[' '^'? -> type(CLASS_OPEN), mode(CLASS), pushMode(CLASS_BEGIN) ;
FIRST_CHARACTER : . -> type(CHARACTER), mode(CLASS) ;

fragment Posix : '[:' '^'? Letter+ ':]' ;

mode CLASS;

CLASS_CLOSE : ']' -> popMode ;
RANGE : '-' ;
BOTH : '&&' ;
POSIX : Posix ;
NESTED_OPEN : '[' '^'? -> type(CLASS_OPEN), pushMode(CLASS_BEGIN) ;
CLASS_SHORT : SHORT_CLASS -> type(SHORT_CLASS) ;
CLASS_PROPERTY : PROPERTY -> type(PROPERTY) ;
CLASS_CODE : CODE -> type(CODE) ;
CLASS_CONTROL : (CONTROL | '\\b') -> type(CONTROL) ;
CLASS_ESCAPED : ESCAPED -> type(ESCAPED) ;
CLASS_CHARACTER : ~[\]\\\-[\n] -> type(CHARACTER) ;

mode COUNT;

NUMBER : Digit+ ;
COMMA : ',' ;
COUNT_CLOSE : '}' -> popMode ;

// Everything up to \E is itself.
mode QUOTATION;

QUOTE_CLOSE : '\\E' -> popMode ;
QUOTED : ~'\n' -> type(CHARACTER) ;
