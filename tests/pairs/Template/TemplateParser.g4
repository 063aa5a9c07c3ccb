/* Templates: text, outputs, and tags that come in pairs. */
parser grammar TemplateParser;

options { tokenVocab = TemplateLexer; }

import TemplateExpressions;

template : node* EOF ;

node
    : TEXT+      # Plain
    | VERBATIM   # Kept
    | output     # Shown
    | branches   # Chosen
    | loop       # Repeated
    | setting    # Bound
    | part       # Named
    | inclusion  # Included
    ;

output : OUTPUT_OPEN expression OUTPUT_CLOSE ;

branches
    : TAG_OPEN IF condition = expression TAG_CLOSE node*
      (TAG_OPEN ELSEIF expression TAG_CLOSE node*)*
      (TAG_OPEN ELSE TAG_CLOSE node*)?
      TAG_OPEN ENDIF TAG_CLOSE
    ;

loop
    : TAG_OPEN FOR names += NAME (COMMA names += NAME)? IN expression (IF expression)? TAG_CLOSE node*
      (TAG_OPEN ELSE TAG_CLOSE node*)?
      TAG_OPEN ENDFOR TAG_CLOSE
    ;

setting : TAG_OPEN SET NAME ASSIGN expression TAG_CLOSE ;

part : TAG_OPEN BLOCK NAME TAG_CLOSE node* TAG_OPEN ENDBLOCK NAME? TAG_CLOSE ;

inclusion : TAG_OPEN INCLUDE expression (WITH map)? TAG_CLOSE ;

// In place of the imported rule: here a test can be a word of the tags.
test : NOT? (NAME | IN | SET) arguments? ;
