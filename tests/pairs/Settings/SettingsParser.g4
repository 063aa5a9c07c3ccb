/* Files of settings: tables with keys and values. */
parser grammar SettingsParser;

options { tokenVocab = SettingsLexer; }

settings : (line? NEWLINE)* line? EOF ;

line
    : pair                                  # Setting
    | TABLE_OPEN path TABLE_CLOSE           # Table
    | TABLES_OPEN path TABLES_CLOSE         # Tables
    ;

pair : path EQUALS value ;

path : KEY (DOT KEY)* ;

value
    : STRING                                                  # Text
    | number                                                  # Count
    | BOOLEAN                                                 # Truth
    | DATE_TIME                                               # Moment
    | LIST_OPEN (value (COMMA value)* COMMA?)? LIST_CLOSE     # List
    | INLINE_OPEN (pair (COMMA pair)*)? INLINE_CLOSE          # Inline
    ;

number : INTEGER | FLOAT ;
