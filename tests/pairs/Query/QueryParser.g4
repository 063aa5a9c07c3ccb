/* Statements for a database. */
parser grammar QueryParser;

options { tokenVocab = QueryLexer; }

import QueryExpressions;

statements : (statement? ';')* statement? EOF ;

statement
    : (WITH named (',' named)*)? query                                              # Question
    | INSERT INTO table = path names? (VALUES row (',' row)* | query)               # Insertion
    | UPDATE path SET assignment (',' assignment)* filter?                          # Change
    | DELETE FROM path filter?                                                      # Removal
    | CREATE TABLE path '(' column (',' column)* (',' PRIMARY KEY names)? ')'       # Creation
    ;

named : NAME names? AS '(' query ')' ;

query
    : query INTERSECT ALL? query                 # Intersection
    | query operator = (UNION | EXCEPT) ALL? query  # Union
    | selection order? limit?                    # Selected
    | '(' query ')' order? limit?                # Bracketed
    ;

selection
    : SELECT DISTINCT? item (',' item)*
      (FROM source (',' source)*)?
      filter?
      (GROUP BY expressions (HAVING expression)?)?
    ;

item : (path '.')? '*' | expression (AS? NAME)? ;

source
    : source LEFT? JOIN source ON expression     # Join
    | source CROSS JOIN source                   # Cross
    | path (AS? NAME)?                           # Table
    | '(' query ')' AS? NAME names?              # Derived
    | '(' source ')'                             # Sources
    ;

filter : WHERE expression ;

order : ORDER BY key (',' key)* ;

key : expression direction = (ASC | DESC)? ;

limit : LIMIT (INTEGER | PARAMETER) (',' INTEGER)? ;

row : '(' expressions ')' ;

assignment : path '=' expression ;

column : NAME NAME ('(' INTEGER (',' INTEGER)? ')')? (NOT? NULL | PRIMARY KEY)* ;

names : '(' NAME (',' NAME)* ')' ;

// In place of the imported rule: a question can stand between brackets too.
bracket : '(' (expressions | query) ')' ;
