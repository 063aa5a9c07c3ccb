# Turns the events of a file back into the text of its tree. A node without children is its name alone.
BEGIN { OFS = "" }
/^files / { print; next }
{
    at = index($0, ": ")
    name = substr($0, 1, at - 1)
    event = substr($0, at + 2)
    split(event, words, " ")
    if (words[1] == "enter") {
        depth++
        label[depth] = words[2]
        children[depth] = ""
        next
    }
    text = substr(event, 7)
    if (words[1] == "exit") {
        text = children[depth] == "" ? label[depth] : "(" label[depth] children[depth] ")"
        depth--
    }
    children[depth] = children[depth] " " text
    if (depth == 0) {
        print name, ": ", text
        children[0] = ""
    }
}
