/* Scripts of a shell. Blanks are tokens, since they part words. */
parser grammar ShellParser;

options { tokenVocab = ShellLexer; }

script : lines EOF ;

lines : (BLANK | NEWLINE)* (sequence (end+ sequence)* end*)? ;

end : NEWLINE BLANK? | ';' BLANK? | '&' BLANK? ;

sequence
    : sequence ('&&' | '||') (BLANK | NEWLINE)* sequence    # Logical
    | pipeline                                             # Single
    ;

pipeline : (BANG BLANK)? command ('|' (BLANK | NEWLINE)* command)* ;

command
    : 'if' lines 'then' lines ('else' lines)? 'fi' after                      # Choice
    | 'while' lines 'do' lines 'done' after                                   # Loop
    | 'for' BLANK WORD BLANK? ('in' (BLANK word)* BLANK?)? end+ 'do' lines 'done' after  # Each
    | GROUP_OPEN lines CLOSE after                                            # Group
    | (setting BLANK)* first (BLANK (word | redirection))* BLANK?             # Simple
    | setting (BLANK setting)* BLANK?                                         # Settings
    ;

// After a command of several lines.
after : (BLANK? redirection)* BLANK? ;

setting : ASSIGNMENT word? ;

redirection : NUMBER? ('<' | '>' | '>>' | '<<<') BLANK? word | HERE_OPEN HERE_LINE* HERE_CLOSE ;

// The first word of a command is none of the words that build commands.
first : plain (plain | other)* ;

word : (plain | other)+ ;

plain
    : WORD
    | SINGLE_QUOTED
    | PARAMETER
    | quoted
    | braced
    | substitution
    ;

other : NUMBER | ASSIGNMENT | BANG | 'if' | 'then' | 'else' | 'fi' | 'while' | 'for' | 'in' | 'do' | 'done' ;

quoted : QUOTE (TEXT | PARAMETER | braced | substitution)* QUOTE ;

substitution : '$(' lines CLOSE | SUM_OPEN sum SUM_CLOSE ;

braced : BRACED_OPEN ((DEFAULT | CUT) (WORD | PARAMETER | quoted | braced | DEFAULT | CUT)*)? BRACED_CLOSE ;

sum
    : <assoc=right> sum POWER sum
    | (PLUS | BANG) sum
    | sum TIMES sum
    | sum PLUS sum
    | sum COMPARED sum
    | LEFT sum RIGHT
    | NUMBER
    | PARAMETER
    ;
