// Sums in lines. How numbers and names are written, and what an operand is, is said by the grammars that this one imports.
grammar Calculator;
import Operands, Words;

line : (sum ';')* ;
sum : sum ('*' | '/') sum | sum ('+' | '-') sum | operand ;

// This rule wins over that of Words.
NUMBER : [0-9]+ ('.' [0-9]+)? ;
