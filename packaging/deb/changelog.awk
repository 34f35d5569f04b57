# The items of one version of CHANGELOG.md as a Debian changelog has them, in at most 78 columns.
# The version is given by -v version=VERSION.

/^## / { inside = index($0, "## [" version "]") == 1 }
!inside { next }
/^- / { tell(); item = substr($0, 3) }
/^  / { item = item " " substr($0, 3) }
/^(#|$)/ { tell() }
END { tell() }

# Writes the item that was read, and forgets it.
function tell(    words, count, i, line) {
    if (item == "") return
    count = split(item, words, " ")
    line = "  *"
    for (i = 1; i <= count; i++) {
        if (length(line " " words[i]) > 78) {
            print line
            line = "   "
        }
        line = line " " words[i]
    }
    print line
    item = ""
}
