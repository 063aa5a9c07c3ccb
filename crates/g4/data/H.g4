grammar H;

r : 'hello' ID ;

ID : [a-z]+ ;
WS : [ \n]+ -> skip ;
