// Tokens of text with tags: what is inside of a tag has a mode of its own.
lexer grammar MarkupLexer;

COMMENT : '<!--' .*? '-->' -> skip ;
OPEN    : '<' -> pushMode(TAG) ;
TEXT    : ~'<'+ ;

mode TAG;

CLOSE  : '>' -> popMode ;
SLASH  : '/' ;
EQUALS : '=' ;
NAME   : [a-z]+ ;
VALUE  : '"' ~'"'* '"' ;
BLANK  : [ \t\r\n]+ -> skip ;
