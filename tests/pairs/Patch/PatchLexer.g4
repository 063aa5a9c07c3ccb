/* Tokens of a patch in the unified format. What a line is depends on where it is: before a file, between its names and its hunks,
   or in one. */
lexer grammar PatchLexer;

channels { REMARKS, FUNCTIONS }

DIFF : 'diff' Options -> mode(PATHS) ;
REMARK_BEGIN : ~'\n' -> more, mode(REMARK_REST) ;
NO_REMARK : '\n' -> skip ;

fragment Options : (' --' [a-z]+ | ' -' [a-zA-Z]+)* ;
fragment Path : [/\-+\p{L}\p{N}._@]+ ;
fragment Hash : [0-9a-f] [0-9a-f] [0-9a-f] [0-9a-f] [0-9a-f] [0-9a-f] [0-9a-f]+ ;
fragment Digit : [0-9] ;

// A line that tells people something.
mode REMARK_REST;

REMARK : ~'\n'* '\n' -> channel(REMARKS), mode(DEFAULT_MODE) ;

// What stands behind the word that begins a line of names.
mode PATHS;

PATH : Path ;
QUOTED_PATH : '"' (~["\\\n] | '\\' .)* '"' -> type(PATH) ;
PATHS_BLANK : ' '+ -> skip ;
PATHS_TIME : '\t' ~'\n'* -> skip ;
PATHS_END : '\n' -> type(LINE_END), mode(HEADER) ;

// Lines between the names of two files and their hunks.
mode HEADER;

INDEX : 'index ' -> mode(HASHES) ;
OLD_MODE : 'old mode ' -> mode(HASHES) ;
NEW_MODE : 'new mode ' -> mode(HASHES) ;
NEW_FILE : 'new file mode ' -> mode(HASHES) ;
DELETED_FILE : 'deleted file mode ' -> mode(HASHES) ;
SIMILARITY : 'similarity index ' -> mode(HASHES) ;
RENAME_FROM : 'rename from ' -> mode(PATHS) ;
RENAME_TO : 'rename to ' -> mode(PATHS) ;
OLD_NAME : '--- ' -> mode(PATHS) ;
NEW_NAME : '+++ ' -> mode(PATHS) ;
BINARY : 'Binary files ' -> mode(PATHS) ;
HEADER_DIFF : DIFF -> type(DIFF), mode(PATHS) ;
HUNK_OPEN : '@@ ' -> mode(RANGES) ;

mode HASHES;

HASH : Hash | '0000000' ;
DOTS : '..' ;
FILE_MODE : Digit Digit Digit Digit Digit Digit ;
PERCENT : Digit+ '%' ;
HASHES_BLANK : ' '+ -> skip ;
LINE_END : '\n' -> mode(HEADER) ;

// The numbers of lines of a hunk.
mode RANGES;

OLD_RANGE : '-' ;
NEW_RANGE : '+' ;
COMMA : ',' ;
NUMBER : Digit+ ;
RANGES_BLANK : ' '+ -> skip ;
HUNK_CLOSE : '@@' -> mode(FUNCTION) ;

mode FUNCTION;

FUNCTION_NAME : ' ' ~'\n'* -> channel(FUNCTIONS) ;
FUNCTION_END : '\n' -> type(LINE_END), mode(LINES) ;

// The lines of a hunk. Their first character tells what they are; another one ends the hunk.
mode LINES;

SAME : ' ' -> pushMode(REST) ;
EMPTY : '\n' -> type(LINE_END) ;
ADDED : '+' -> pushMode(REST) ;
REMOVED : '-' -> pushMode(REST) ;
NO_LINE_END : '\\ No newline at end of file\n' ;
NEXT_HUNK : '@@ ' -> type(HUNK_OPEN), mode(RANGES) ;
NEXT_DIFF : DIFF -> type(DIFF), mode(PATHS) ;
SIGNATURE : '-- \n' -> mode(DEFAULT_MODE) ;

mode REST;

TEXT : ~'\n'+ ;
REST_END : '\n' -> type(LINE_END), popMode ;
