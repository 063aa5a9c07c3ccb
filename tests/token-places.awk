# The places, in bytes, where the tokens of a grammar text begin. It reads texts whose braces are well nested.
BEGIN {
    RS = "\001"
    quoted = "^(\"([^\"\\\\]|\\\\.)*\"|'([^'\\\\]|\\\\.)*')"
    note = "^(/[*]([^*]|[*]+[^*/])*[*]+/|//[^\n]*)"
}

# How long the action is with which the text begins.
function action(text,   at, depth, sign, rest) {
    for (at = 1; at <= length(text); at += (match(rest, quoted) || match(rest, note)) ? RLENGTH : 1) {
        rest = substr(text, at)
        sign = substr(rest, 1, 1)
        if (sign == "{") depth++
        if (sign == "}" && --depth == 0) return at
    }
    return 1
}

{
    text = $0
    place = 0
    while (text != "") {
        if (match(text, /^[ \t\r\n]+/) || match(text, note)) taken = RLENGTH
        else {
            print place
            word = match(text, /^[A-Za-z_0-9]+/)
            if (word || match(text, quoted) || match(text, /^\[([^]\\]|\\.)*\]/) || match(text, /^(::|[.][.]|->|[+]=)/)) taken = RLENGTH
            else if (text ~ /^[{]/ && !declares) taken = action(text)
            else taken = 1
            declares = word && substr(text, 1, taken) ~ /^(options|tokens|channels)$/
        }
        place += taken
        text = substr(text, taken + 1)
    }
}
