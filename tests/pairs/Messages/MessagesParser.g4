/* Messages one after another. */
parser grammar MessagesParser;

options { tokenVocab = MessagesLexer; }

messages : PART* message (PART+ message)* PART* EOF ;

message : (request | answer) field* (LINE_END body?)? ;

request : METHOD SPACE target VERSION? LINE_END ;

answer : VERSION CODE REASON? LINE_END ;

target
    : STAR                          # Any
    | address? path query?          # Resource
    | address query?                # Site
    ;

address : SCHEME? (HOST | SEGMENT) PORT? ;

path : SLASH segment? (SLASH segment)* SLASH? ;

segment : (SEGMENT | HOST | EQUALS | PORT | STAR)+ ;

query : QUESTION (pair (AND pair)*)? ;

pair : key = part (EQUALS part?)? ;

part : (SEGMENT | HOST | SLASH | STAR | PORT | SCHEME)+ ;

field : FIELD_NAME COLON (item (COMMA item?)*)? LINE_END ;

item : (DATE | atom+) parameter* ;

parameter : SEMICOLON (WORD (ASSIGN (WORD | QUOTED | DATE))? | QUOTED)* ;

atom : WORD | QUOTED | ASSIGN ;

body : BODY_LINE+ ;
