# What the program is made of, for the scripts that run, build, keep and check it. It is read by them (. .ci/program.sh).

# crates_of TOP: the crates of the repository that the program is made of, a line each
crates_of() {
    awk -F: '
        { sub(/#.*/, "") }
        NF > 1 { split($1, head, " "); uses[head[1]] = $2 }
        END { reach("board"); for (name in seen) print name }
        function reach(name, words, count, at) {
            if (name in seen || !(name in uses)) return
            seen[name]
            count = split(uses[name], words, " ")
            for (at = 1; at <= count; at++) reach(words[at])
        }' "$1/crates.txt" | LC_ALL=C sort
}

# files_of TOP: the files of which the program is built, each name ended by a zero byte. What specs/ and proofs/ hold proves it and is in no byte of it
files_of() {
    (
        cd "$1" || exit 1
        for crate in $(crates_of .); do
            find "crates/$crate/src" -type f -print0
        done | LC_ALL=C sort -z
    )
}

# sum_of_sources TOP: one sum of those files, their names, and what each crate uses
sum_of_sources() {
    (
        cd "$1" || exit 1
        {
            for crate in $(crates_of .); do grep "^$crate[ :]" crates.txt; done
            files_of . | xargs -0 sha256sum
        } | sha256sum | cut -d ' ' -f 1
    )
}
