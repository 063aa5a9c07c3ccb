/* Patches: of each file its names, what became of it, and the hunks. */
parser grammar PatchParser;

options { tokenVocab = PatchLexer; }

patch : file+ SIGNATURE? EOF ;

file : DIFF before = PATH after = PATH LINE_END change* (names hunk+ | BINARY PATH PATH PATH PATH LINE_END)? ;

change
    : INDEX HASH DOTS HASH FILE_MODE? LINE_END      # Index
    | OLD_MODE FILE_MODE LINE_END                   # OldMode
    | NEW_MODE FILE_MODE LINE_END                   # NewMode
    | NEW_FILE FILE_MODE LINE_END                   # Created
    | DELETED_FILE FILE_MODE LINE_END               # Deleted
    | SIMILARITY PERCENT LINE_END                   # Similarity
    | RENAME_FROM PATH LINE_END RENAME_TO PATH LINE_END  # Renamed
    ;

names : OLD_NAME PATH LINE_END NEW_NAME PATH LINE_END ;

hunk : HUNK_OPEN OLD_RANGE range NEW_RANGE range HUNK_CLOSE LINE_END block+ ;

range : first = NUMBER (COMMA count = NUMBER)? ;

// Lines of one kind, as many as there are.
block
    : (same NO_LINE_END?)+        # Kept
    | (removed NO_LINE_END?)+ (added NO_LINE_END?)*  # Replaced
    | (added NO_LINE_END?)+        # Inserted
    ;

same : SAME TEXT? LINE_END | LINE_END ;

removed : REMOVED TEXT? LINE_END ;

added : ADDED TEXT? LINE_END ;
