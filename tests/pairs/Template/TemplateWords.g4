/* Words between the braces of a template. */
lexer grammar TemplateWords;

REMARK : '{#' ~'#'* '#}' -> skip ;

fragment Digit : [0-9] ;
fragment Blank : [ \t\r\n] ;

mode INSIDE;

NUMBER : Digit+ ('.' Digit+)? ([eE] [+\-]? Digit+)? ;

IF : 'if' ;
ELSEIF : 'elseif' ;
ELSE : 'else' ;
ENDIF : 'endif' ;
FOR : 'for' ;
IN : 'in' ;
ENDFOR : 'endfor' ;
SET : 'set' ;
BLOCK : 'block' ;
ENDBLOCK : 'endblock' ;
INCLUDE : 'include' ;
WITH : 'with' ;
AND : 'and' ;
OR : 'or' ;
NOT : 'not' ;
IS : 'is' ;
TRUE : 'true' ;
FALSE : 'false' ;

NAME : [\p{L}_] [\p{L}\p{Nd}_]* ;

PIPE : '|' ;
DOT : '.' ;
COMMA : ',' ;
COLON : ':' ;
QUESTION : '?' ;
POWER : '**' ;
TIMES : '*' ;
OVER : '/' ;
REST : '%' ;
PLUS : '+' ;
MINUS : '-' ;
JOIN : '~' ;
RANGE : '..' ;
EQUAL : '==' ;
UNEQUAL : '!=' ;
LESS : '<' ;
LESS_EQUAL : '<=' ;
GREATER : '>' ;
GREATER_EQUAL : '>=' ;
ASSIGN : '=' ;
PAREN_OPEN : '(' ;
PAREN_CLOSE : ')' ;
BRACKET_OPEN : '[' ;
BRACKET_CLOSE : ']' ;

STRING_BEGIN : '"' -> more, mode(STRING_BODY) ;
SHORT_STRING : '\'' ~['\n]* '\'' -> type(STRING) ;
BLANKS : Blank+ -> skip ;

// A string is one token, quotes included.
mode STRING_BODY;

STRING_ESCAPE : '\\' . -> more ;
STRING_PART : ~["\\] -> more ;
STRING : '"' -> mode(INSIDE) ;
