/** JSON, with the lexer rules written in sets and blocks. */
grammar JSON;

json : value EOF ;
value : STRING | NUMBER | object | array | 'true' | 'false' | 'null' ;
object : '{' (pair (',' pair)*)? '}' ;
pair : STRING ':' value ;
array : '[' (value (',' value)*)? ']' ;

STRING : '"' ([\u0020\u0021\u0023-\u005B\u005D-\uD7FF\uE000-\u{10FFFF}] | '\\' ["\\/bfnrt] | '\\u' [0-9a-fA-F] [0-9a-fA-F] [0-9a-fA-F] [0-9a-fA-F])* '"' ;
NUMBER : ('-' | ) ('0' | [1-9] [0-9]*) ('.' [0-9]+ | ) ([eE] ([+\-] | ) [0-9]+ | ) ;
WS : [ \t\r\n]+ -> skip ;
