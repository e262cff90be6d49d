# Reads include/urdhvasolk.h and prints every struct and every function as one line of C, without comments.
{
    gsub(/\/\*[^*]*\*\//, "")
    if ($0 ~ /\/\*/) { comment = 1; next }
    if (comment) { if ($0 ~ /\*\//) comment = 0; next }
    if ($0 ~ /^#/ || $0 ~ /^extern "C"/ || $0 ~ /^ *$/) next
    gsub(/^ +| +$/, "")
    text = text (text == "" ? "" : " ") $0
    if (text ~ /^typedef struct .*{/ && text !~ /} [a-z_]*;$/) next
    if (text == "}") { text = ""; next }
    if (text ~ /;$/) { print text; text = "" }
}
