# Applies a must-fail edit to the crate in the folder that -v folder= names, as rt does: in the file of its line 'file: ', each text
# behind 'old: ', which stands there once, becomes the text behind 'new: ' after it. Status 1 where a text is not there.

function put(    i) {
    for (i = 1; i <= n; i++) print text[i] > path
    if (path != "") close(path)
    n = 0
}

/^file: / {
    put()
    path = substr($0, 7)
    sub(/ *$/, "", path)
    path = folder "/" path
    while ((getline line < path) > 0) text[++n] = line
    close(path)
}
/^old: / { old = substr($0, 6) }
/^new:/ {
    new = substr($0, 5)
    sub(/^ /, "", new)
    for (i = 1; i <= n && !(at = index(text[i], old)); i++);
    if (i > n) { missing = 1; exit }
    text[i] = substr(text[i], 1, at - 1) new substr(text[i], at + length(old))
}
END { if (!missing) put(); exit missing }
