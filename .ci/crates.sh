# A function of the scripts. The current folder is the top of the repository.

# The crates of this repository that the crate $1 stands on, lowest first, by the lines 'NAME: DEP DEP ..' of crates.txt.
crates_below() {
    awk -v top="$1" '
        { sub(/#.*/, "") }
        /:/ { cut = index($0, ":"); split(substr($0, 1, cut - 1), word, " "); uses[word[1]] = substr($0, cut + 1) }
        function visit(name,    dep, count, i) {
            count = split(uses[name], dep, " ")
            for (i = 1; i <= count; i++)
                if (dep[i] in uses && !(dep[i] in seen)) { seen[dep[i]] = 1; visit(dep[i]) }
            if (name != top) print name
        }
        END { visit(top) }' crates.txt
}
