# Completion of the tools' arguments for bash. Made by packaging/make-pages.
# Source this file, or copy it to /etc/bash_completion.d.

_chordsim_tools() {
    local current=${COMP_WORDS[COMP_CWORD]} previous=${COMP_WORDS[COMP_CWORD - 1]}
    local tool=${COMP_WORDS[0]##*/} options='' of_files='' of_others='' values='' takes_files=''
    COMPREPLY=()
    # Bash takes --seed=5 for three words.
    if [ "$current" = "=" ]; then
        current=
    elif [ "$previous" = "=" ]; then
        previous=${COMP_WORDS[COMP_CWORD - 2]}
    fi
    tool=${tool#chordsim-}
    [ "$tool" != study ] || [ "$COMP_CWORD" -eq 1 ] || tool="study ${COMP_WORDS[1]}"
    case $tool in
    "explain")
        options="--help --version --json --most --alone"
        of_others="--most"
        takes_files=yes
        ;;
    "generate")
        options="--help --version --profile --nodes --classes --group --ids --initial --bits --list --duration --window --latency --timeout --audit --stabilize --finger --jitter --max-events --loss --spread --retries --join-pause --join-forever --no-join-forever --check --detail --no-list-routes --no-goes-on --no-ask-owner --lookup-timeouts --no-drop-silent --no-skip-near --no-random-start --stabilize-jitter --finger-jitter --check-jitter --no-clean-lists --no-join-asks --create-alone --bootstrap --coordinates --seed --churn-uniform --lifetime --down --leaves --stationary --stay --arrivals --crash --back --churn-trace --via --arrive --lookup-gap --lookups --keys --random --links -o"
        of_files="--churn-trace --links -o"
        of_others="--nodes --group --initial --bits --list --duration --window --latency --timeout --audit --stabilize --finger --jitter --max-events --loss --spread --retries --join-pause --check --lookup-timeouts --stabilize-jitter --finger-jitter --check-jitter --bootstrap --coordinates --seed --churn-uniform --lifetime --down --leaves --stay --arrivals --crash --back --arrive --lookup-gap --lookups --keys --random"
        ;;
    "latency")
        options="--help --version --nodes --names --seed --form --unit --gaps --plane --regions --fit --king --floor -o"
        of_files="--names --regions --fit -o"
        of_others="--nodes --seed --plane --floor"
        takes_files=yes
        ;;
    "reference")
        options="--help --version --trace --report --compare --messages"
        of_files="--trace --compare"
        takes_files=yes
        ;;
    "study")
        options="run search merge plot report compare --help --version"
        ;;
    "study run")
        options="--help --jobs -o --part --dask"
        of_files="-o"
        of_others="--jobs --part --dask"
        takes_files=yes
        ;;
    "study search")
        options="--help --jobs -o"
        of_files="-o"
        of_others="--jobs"
        takes_files=yes
        ;;
    "study merge")
        options="--help -o --study"
        of_files="-o --study"
        takes_files=yes
        ;;
    "study plot")
        options="--help --x --by --panels --most-lost --y --study"
        of_files="--study"
        of_others="--x --by --panels --most-lost --y"
        takes_files=yes
        ;;
    "study report")
        options="--help --study"
        of_files="--study"
        takes_files=yes
        ;;
    "study compare")
        options="--help --study"
        of_files="--study"
        takes_files=yes
        ;;
    "trace")
        options="--help --version --latency --report --over-time --per-node --worst --node --lookup --join --removed --lookups --html --groups --json"
        of_files="--latency --report --lookups --html --groups"
        of_others="--over-time --worst --node --lookup --join --removed"
        takes_files=yes
        ;;
    esac
    case "$tool $previous" in
    "generate --profile") values="1 2 4" ;;
    "generate --ids") values="random names" ;;
    "generate --via") values="random first" ;;
    "latency --form") values="matrix lines" ;;
    "latency --unit") values="us ms s" ;;
    "latency --gaps") values="fill refuse" ;;
    esac
    if [ -n "$values" ]; then
        mapfile -t COMPREPLY < <(compgen -W "$values" -- "$current")
    elif [[ " $of_others " == *" $previous "* ]]; then
        return
    elif [[ " $of_files " == *" $previous "* || ( -n $takes_files && $current != -* ) ]]; then
        mapfile -t COMPREPLY < <(compgen -f -- "$current")
    else
        mapfile -t COMPREPLY < <(compgen -W "$options" -- "$current")
    fi
}

complete -o filenames -F _chordsim_tools chordsim-explain tools/explain chordsim-generate tools/generate chordsim-latency tools/latency chordsim-reference tools/reference chordsim-study tools/study chordsim-trace tools/trace
