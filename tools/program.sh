# What ./chordsim, tools/renew_release and tools/check_release share: what the program is made of, and where it is kept.
# The script that reads this file has set `top` to the folder of the repository.

# The folder of the program that the repository keeps, the folder of the one that ./chordsim has built, and the program
# that rt ci makes in the repository.
release=$top/release/x86_64-linux
built=$top/out
made=$top/crates/chordsim/out/chordsim

# Prints the crates that the program is made of, each below those that depend on it.
crates_of_program() {
    awk '
        function add(crate,   names, count, i) {
            if (!(crate in below) || crate in added) return
            added[crate]
            count = split(below[crate], names, " ")
            for (i = 1; i <= count; i++) add(names[i])
            print crate
        }
        { sub(/#.*/, "") }
        split($0, line, ":") == 2 { split(line[1], name, " "); below[name[1]] = line[2] }
        END { add("chordsim") }
    ' "$top/crates.txt"
}

# Prints the sources of the program that pass these tests of find: code, definitions and proofs. Crates of tests are not
# among them. It is run in the folder of the crates, whose names and files have no blanks.
sources_of_program() {
    find $(crates_of_program) \( -name out -o -name must-fail \) -prune -o \
        \( \( -name '*.rt' -o -name '*.antt' \) "$@" \) -print
}

# Prints a sum of the sources of the program.
sum_of_sources() {
    (
        cd "$top/crates" || exit 1
        {
            cat ../crates.txt
            sources_of_program | LC_ALL=C sort | xargs sha256sum
        } | sha256sum | cut -d ' ' -f 1
    )
}

# Whether a source of the program, or what crates.txt says, was changed after rt made the program. A change gives a file
# another ctime, which nobody can set back. A source that is added or removed changes its folder. The folder of a crate
# itself is not looked at: rt makes others in it.
has_changed_since() {
    changed=$(
        cd "$top/crates" || exit 1
        sources_of_program -cnewer "$made"
        find $(crates_of_program) -mindepth 1 \( -name out -o -name must-fail \) -prune -o \
            -type d -cnewer "$made" -print
        find ../crates.txt -cnewer "$made"
    )
    [ -n "$changed" ]
}

# Whether the folder has a program of the sources with this sum.
is_of_sources() {
    [ -x "$1/chordsim" ] && [ -r "$1/chordsim.sources" ] && read -r of < "$1/chordsim.sources" && [ "$of" = "$2" ]
}

# Whether the program that the repository keeps can be run, and has the digest that is kept beside it.
is_release_whole() {
    [ -x "$release/chordsim" ] && (cd "$release" && sha256sum --check --status chordsim.sha256 2> /dev/null)
}
