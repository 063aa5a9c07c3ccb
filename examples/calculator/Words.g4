// How words are written.
lexer grammar Words;

NAME : [a-z]+ ;
NUMBER : [0-9]+ ;
BLANK : [ \t\r\n]+ -> skip ;
