/* Tokens of messages, requests and answers, with a line of ### between them. A message has a first line, fields, and a body. */
lexer grammar MessagesLexer;

REMARK : '#' ~'\n'* '\n' -> skip ;
EMPTY : '\r'? '\n' -> skip ;
VERSION : 'HTTP/' [0-9] '.' [0-9] -> mode(STATUS) ;
METHOD : 'GET' | 'HEAD' | 'POST' | 'PUT' | 'DELETE' | 'OPTIONS' ;
OTHER_METHOD : Upper+ -> type(METHOD) ;
SPACE : ' ' -> mode(TARGET) ;

fragment Upper : [A-Z] ;
fragment Digit : [0-9] ;
fragment Hexadecimal : [0-9a-fA-F] ;
fragment Symbol : [!#$%&'*+\-.^_`|~0-9A-Za-z] ;
fragment End : '\r'? '\n' ;

// What is asked for: an address with a path and a query.
mode TARGET;

SCHEME : ('http' 's'? | 'ws' 's'?) '://' ;
HOST : [a-z0-9\-]+ ('.' [a-z0-9\-]+)+ ;
PORT : ':' Digit+ ;
SLASH : '/' ;
SEGMENT : (Segment | '%' Hexadecimal Hexadecimal)+ ;
QUESTION : '?' ;
EQUALS : '=' ;
AND : '&' ;
STAR : '*' ;
TARGET_VERSION : ' HTTP/' Digit '.' Digit -> type(VERSION) ;
TARGET_END : End -> type(LINE_END), mode(FIELDS) ;

fragment Segment : ~[/?=&% \r\n*:] ;

mode STATUS;

CODE : [1-5] Digit Digit ;
STATUS_SPACE : ' ' -> skip ;
REASON : [A-Za-z] [A-Za-z \-']* ;
STATUS_END : End -> type(LINE_END), mode(FIELDS) ;

// The names of fields, and the line that ends them.
mode FIELDS;

FIELD_NAME : Symbol+ ;
COLON : ':' [ \t]* -> mode(FIELD_VALUE) ;
LINE_END : End -> mode(BODY) ;

// The value of a field. A line that begins with a blank goes on with it.
mode FIELD_VALUE;

QUOTED_OPEN : '"' -> more, mode(FIELD_QUOTE) ;
SEMICOLON : ';' ;
COMMA : ',' ;
ASSIGN : '=' ;
DATE : Day ',' ~[\r\n]+ 'GMT' ;
WORD : ~[",;= \t\r\n]+ ;
FIELD_BLANK : [ \t]+ -> skip ;
FOLD : End [ \t]+ -> skip ;
FIELD_END : End -> type(LINE_END), mode(FIELDS) ;

fragment Day : 'Mon' | 'Tue' | 'Wed' | 'Thu' | 'Fri' | 'Sat' | 'Sun' ;

mode FIELD_QUOTE;

QUOTE_PAIR : '\\' . -> more ;
QUOTE_PART : ~["\\\r\n] -> more ;
QUOTED : '"' -> mode(FIELD_VALUE) ;

// A body is lines up to the one that parts messages.
mode BODY;

PART : '###' ~'\n'* '\n' -> mode(DEFAULT_MODE) ;
BODY_LINE : ~[\r\n]* End ;
LAST_LINE : ~[\r\n]+ -> type(BODY_LINE) ;

// More of what stands between fields: remarks, and the line that parts messages, where there is no body.
mode FIELDS;

FIELD_REMARK : '//' ~'\n'* '\n' -> channel(HIDDEN) ;
NEXT : '###' ~[#\n]* '\n' -> type(PART), mode(DEFAULT_MODE) ;
