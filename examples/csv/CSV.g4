/** Comma-separated values. A field may be empty, and in quotes it may have commas, newlines and doubled quotes. */
grammar CSV;

csv : row* ;
row : field (',' field)* NEWLINE ;
field : TEXT | QUOTED | ;

TEXT : [\t\u0020\u0021\u0023-\u002B\u002D-\uD7FF\uE000-\u{10FFFF}]+ ;
QUOTED : '"' ('""' | [\u0000-\u0021\u0023-\uD7FF\uE000-\u{10FFFF}])* '"' ;
NEWLINE : '\r\n' | '\n' ;
