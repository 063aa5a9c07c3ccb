/** Sums of products, by a ladder of rules: what binds closer is called further down. */
grammar Sums;

sums : (sum ';')* ;
sum : product (('+' | '-') product)* ;
product : factor (('*' | '/') factor)* ;
factor : '-' factor | primary ;
primary : NUMBER | NAME | NAME '(' (sum (',' sum)*)? ')' | '(' sum ')' ;

NUMBER : [0-9]+ ;
NAME : [a-z]+ ;
WS : [ \t\r\n]+ -> skip ;
