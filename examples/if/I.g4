grammar I;
s : 'if' ID 'then' ID 'else' ID | 'if' ID 'then' ID | ID ;
ID : [a-z]+ ;
WS : [ \n]+ -> skip ;
